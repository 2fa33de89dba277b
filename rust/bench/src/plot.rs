//! A small plot of the cost of a letter against the number of nodes.
use crate::timing::Times;
use std::fmt::Write;

const WIDTH: f64 = 640.0;
const HEIGHT: f64 = 300.0;
const MARGIN: f64 = 50.0;

/// The plot: a place for each number of nodes to the right, nanoseconds up.
pub fn by_nodes(points: &[(String, Times)]) -> String {
    let highest = points.iter().map(|(_, times)| times.library.max(times.other)).fold(10.0, f64::max);
    let mut plot = Plot { svg: String::new(), places: points.len(), top: (highest / 10.0).ceil() * 10.0 };
    plot.put(&format!(
        "<svg xmlns=\"http://www.w3.org/2000/svg\" width=\"{WIDTH}\" height=\"{HEIGHT}\" font-family=\"sans-serif\" font-size=\"12\">"
    ));
    plot.put("<rect width=\"100%\" height=\"100%\" fill=\"white\"/>");
    for (index, (name, _)) in points.iter().enumerate() {
        plot.label(plot.across(index), HEIGHT - MARGIN + 18.0, "middle", name);
    }
    for quarter in 0..=4 {
        let nanoseconds = plot.top * f64::from(quarter) / 4.0;
        let y = plot.up(nanoseconds);
        plot.put(&format!("<path d=\"M {MARGIN} {y:.1} H {}\" stroke=\"#ccc\"/>", WIDTH - MARGIN));
        plot.label(MARGIN - 6.0, y + 4.0, "end", &format!("{nanoseconds:.0}"));
    }
    plot.label(MARGIN, 24.0, "start", "nanoseconds a letter");
    plot.label(WIDTH / 2.0, HEIGHT - 10.0, "middle", "nodes");
    plot.line(points.iter().map(|(_, times)| times.library), "#b03030", "library", WIDTH - 210.0);
    plot.line(points.iter().map(|(_, times)| times.other), "#3050b0", "reference", WIDTH - 130.0);
    plot.put("</svg>");
    plot.svg
}

struct Plot {
    svg: String,
    places: usize,
    /// The nanoseconds at the upper edge.
    top: f64,
}

impl Plot {
    fn put(&mut self, element: &str) {
        writeln!(self.svg, "{element}").expect("a string takes all");
    }

    fn across(&self, index: usize) -> f64 {
        MARGIN + (WIDTH - 2.0 * MARGIN) * (index as f64 + 0.5) / self.places as f64
    }

    fn up(&self, nanoseconds: f64) -> f64 {
        HEIGHT - MARGIN - (HEIGHT - 2.0 * MARGIN) * nanoseconds / self.top
    }

    fn label(&mut self, x: f64, y: f64, anchor: &str, text: &str) {
        self.put(&format!("<text x=\"{x:.1}\" y=\"{y:.1}\" text-anchor=\"{anchor}\">{text}</text>"));
    }

    /// A line through the points, and its name with a spot of its color at `x` above the plot.
    fn line(&mut self, costs: impl Iterator<Item = f64>, color: &str, name: &str, x: f64) {
        let spots: Vec<(f64, f64)> =
            costs.enumerate().map(|(index, cost)| (self.across(index), self.up(cost))).collect();
        let joined: Vec<String> = spots.iter().map(|(x, y)| format!("{x:.1},{y:.1}")).collect();
        self.put(&format!("<polyline points=\"{}\" fill=\"none\" stroke=\"{color}\"/>", joined.join(" ")));
        for (x, y) in spots.into_iter().chain([(x, 20.0)]) {
            self.put(&format!("<circle cx=\"{x:.1}\" cy=\"{y:.1}\" r=\"3\" fill=\"{color}\"/>"));
        }
        self.label(x + 8.0, 24.0, "start", name);
    }
}
