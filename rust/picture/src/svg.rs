//! The few shapes that the picture is made of.
use std::fmt::Write;

pub const INK: &str = "#22303c";
pub const SOFT: &str = "#66757f";
pub const LINE: &str = "#b8c4cc";
/// What opens a row, what opens a spine, and a run within either.
pub const ROW: &str = "#1f6fb2";
pub const SPINE: &str = "#2c8a57";
pub const RUN: &str = "#d97706";

pub struct Svg {
    text: String,
}

impl Svg {
    pub fn new(width: f64, height: f64) -> Svg {
        let mut svg = Svg { text: String::new() };
        svg.put(&format!(
            "<svg xmlns=\"http://www.w3.org/2000/svg\" width=\"{width}\" height=\"{height}\" viewBox=\"0 0 {width} {height}\" \
             font-family=\"DejaVu Sans, Verdana, Helvetica, Arial, sans-serif\">"
        ));
        svg.put("<title>A meal plan's rules, its forest and the cells of one place</title>");
        svg.put(&format!("<rect width=\"{width}\" height=\"{height}\" rx=\"16\" fill=\"#fbfaf6\"/>"));
        svg
    }

    fn put(&mut self, element: &str) {
        // A string takes all.
        let _ = writeln!(self.text, "{element}");
    }

    pub fn end(mut self) -> String {
        self.put("</svg>");
        self.text
    }

    #[allow(clippy::too_many_arguments)]
    pub fn text(&mut self, x: f64, y: f64, anchor: &str, size: f64, color: &str, bold: bool, text: &str) {
        let weight = if bold { " font-weight=\"bold\"" } else { "" };
        self.put(&format!(
            "<text x=\"{x:.1}\" y=\"{y:.1}\" text-anchor=\"{anchor}\" font-size=\"{size}\" fill=\"{color}\"{weight}>{text}</text>"
        ));
    }

    /// Text in letters of one width.
    pub fn code(&mut self, x: f64, y: f64, anchor: &str, size: f64, color: &str, text: &str) {
        self.put(&format!(
            "<text x=\"{x:.1}\" y=\"{y:.1}\" text-anchor=\"{anchor}\" font-size=\"{size}\" fill=\"{color}\" font-weight=\"bold\" \
             font-family=\"DejaVu Sans Mono, Menlo, Consolas, monospace\">{text}</text>"
        ));
    }

    pub fn card(&mut self, x: f64, y: f64, width: f64, height: f64) {
        self.put(&format!(
            "<rect x=\"{x:.1}\" y=\"{y:.1}\" width=\"{width:.1}\" height=\"{height:.1}\" rx=\"10\" fill=\"white\" stroke=\"#e3e0d6\"/>"
        ));
    }

    /// A band around things that belong together.
    pub fn band(&mut self, x: f64, y: f64, width: f64, height: f64, color: &str) {
        self.put(&format!(
            "<rect x=\"{x:.1}\" y=\"{y:.1}\" width=\"{width:.1}\" height=\"{height:.1}\" rx=\"{:.1}\" fill=\"{color}\" fill-opacity=\"0.10\" \
             stroke=\"{color}\" stroke-dasharray=\"5 4\"/>",
            height.min(width) / 2.0
        ));
    }

    pub fn line(&mut self, from: (f64, f64), to: (f64, f64), color: &str, width: f64) {
        let ((x, y), (to_x, to_y)) = (from, to);
        self.put(&format!(
            "<path d=\"M {x:.1} {y:.1} L {to_x:.1} {to_y:.1}\" stroke=\"{color}\" stroke-width=\"{width}\" stroke-linecap=\"round\"/>"
        ));
    }

    /// A line with a point at its end.
    pub fn arrow(&mut self, from: (f64, f64), to: (f64, f64), color: &str) {
        let ((x, y), (to_x, to_y)) = (from, to);
        let length = (to_x - x).hypot(to_y - y).max(1.0);
        let (along, up) = ((to_x - x) / length, (to_y - y) / length);
        self.line(from, (to_x - 6.0 * along, to_y - 6.0 * up), color, 2.0);
        let corner = |side: f64| (to_x - 9.0 * along - 5.0 * side * up, to_y - 9.0 * up + 5.0 * side * along);
        let ((a, b), (c, d)) = (corner(1.0), corner(-1.0));
        self.put(&format!("<path d=\"M {to_x:.1} {to_y:.1} L {a:.1} {b:.1} L {c:.1} {d:.1} Z\" fill=\"{color}\"/>"));
    }

    pub fn circle(&mut self, x: f64, y: f64, radius: f64, fill: &str, stroke: &str, width: f64) {
        self.put(&format!(
            "<circle cx=\"{x:.1}\" cy=\"{y:.1}\" r=\"{radius:.1}\" fill=\"{fill}\" stroke=\"{stroke}\" stroke-width=\"{width}\"/>"
        ));
    }

    /// A hole: a square of dashes.
    pub fn hole(&mut self, x: f64, y: f64, radius: f64) {
        let (left, top, side) = (x - radius, y - radius, 2.0 * radius);
        self.put(&format!(
            "<rect x=\"{left:.1}\" y=\"{top:.1}\" width=\"{side:.1}\" height=\"{side:.1}\" rx=\"3\" fill=\"white\" stroke=\"{SPINE}\" \
             stroke-width=\"1.6\" stroke-dasharray=\"4 3\"/>"
        ));
    }

    /// A rule's number in a box.
    pub fn tag(&mut self, x: f64, y: f64, number: u16, color: &str, is_full: bool) {
        let (fill, ink) = if is_full { (color, "white") } else { ("white", color) };
        self.put(&format!(
            "<rect x=\"{:.1}\" y=\"{:.1}\" width=\"34\" height=\"26\" rx=\"6\" fill=\"{fill}\" stroke=\"{color}\" stroke-width=\"1.8\"/>",
            x - 17.0,
            y - 13.0
        ));
        self.code(x, y + 5.0, "middle", 14.0, ink, &number.to_string());
    }
}
