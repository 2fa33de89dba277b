//! The cells of one place: what each opens or runs along, drawn beside it.
use crate::svg::{INK, LINE, ROW, RUN, SOFT, SPINE, Svg};
use mealplan::{Place, Plan, Rule};

/// What a cell opens, with the runs behind it.
struct Opened {
    is_row: bool,
    /// The rule that it is of, and the one that it is taken apart from.
    rule: u16,
    first: u16,
    told: String,
    /// Which forest beside a hole it is over, if it is one.
    beside: Option<String>,
    cells: Vec<[u16; 4]>,
}

/// The cells of a place by what they open.
fn opened(plan: Plan, place: &Place) -> Vec<Opened> {
    let mut all: Vec<Opened> = Vec::new();
    let mut reached = None;
    for cell in place.cells() {
        let [kind, first, second, _] = cell;
        let cells = vec![cell];
        match kind {
            1 => {
                let part = reached.unwrap_or_default();
                let beside = match first {
                    0 => None,
                    1 => Some(format!("left of the hole of rule {part}")),
                    _ => Some(format!("right of the hole of rule {part}")),
                };
                let told = format!("a row over rule {second}");
                all.push(Opened { is_row: true, rule: second, first: second, told, beside, cells });
                reached = Some(second);
            }
            2 => {
                let inner = match plan.rule(first) {
                    Some(Rule::Fill(b, _)) => b,
                    _ => first,
                };
                let told = format!("the spine of tree {first}");
                all.push(Opened { is_row: false, rule: first, first: inner, told, beside: None, cells });
                reached = Some(inner);
            }
            _ => {
                if let Some(last) = all.last_mut() {
                    last.cells.push(cell);
                }
                reached = Some(second);
            }
        }
    }
    all
}

/// Where each drawing begins, and how wide it is.
const COLUMNS: [(f64, f64); 4] = [(60.0, 270.0), (344.0, 310.0), (672.0, 236.0), (926.0, 200.0)];
const TOP: f64 = 466.0;
const LEVEL: f64 = 52.0;

pub fn draw(svg: &mut Svg, plan: Plan, place: &Place) {
    svg.card(40.0, 394.0, 1100.0, 364.0);
    svg.text(60.0, 424.0, "start", 16.0, INK, true, "The way to this b, and the cells that say it");
    let all = opened(plan, place);
    for (i, (opened, (x, width))) in all.iter().zip(COLUMNS).enumerate() {
        let color = if opened.is_row { ROW } else { SPINE };
        svg.text(x, TOP - 8.0, "start", 13.0, color, true, &opened.told);
        if let Some(beside) = &opened.beside {
            svg.text(x, TOP + 9.0, "start", 12.5, color, false, beside);
        }
        parts(svg, plan, opened, (x + width / 2.0 - 40.0, TOP + 36.0), color);
        cells(svg, opened, (x, TOP + 192.0), color);
        if i + 1 < all.len() {
            let at = x + width - 2.0;
            svg.arrow((at - 22.0, TOP + 36.0), (at, TOP + 36.0), SOFT);
        }
    }
    legend(svg, (60.0, 738.0));
}

/// What is opened, taken apart: a row through pairs to trees, a spine through joins to parts, with the tree in its last hole.
fn parts(svg: &mut Svg, plan: Plan, opened: &Opened, (x, y): (f64, f64), color: &str) {
    match plan.rule(opened.rule) {
        Some(Rule::Fill(b, c)) if !opened.is_row => {
            svg.line((x, y), (x, y + LEVEL), color, 2.0);
            svg.line((x, y), (x + 122.0, y + LEVEL), LINE, 1.6);
            svg.tag(x + 122.0, y + LEVEL, c, SOFT, false);
            svg.text(x + 122.0, y + LEVEL + 30.0, "middle", 12.0, SOFT, false, "in the last hole");
            taken_apart(svg, plan, b, (x, y + LEVEL), (opened, color));
        }
        rule => {
            taken_apart(svg, plan, opened.rule, (x, y), (opened, color));
            let alone = if opened.is_row { "one tree, so no run" } else { "one node: this b" };
            if matches!(rule, Some(Rule::Node(..))) {
                svg.text(x, y + 34.0, "middle", 12.0, SOFT, false, alone);
            }
        }
    }
    svg.tag(x, y, opened.rule, color, true);
}

/// A rule and, where it is a pair in a row or a join in a spine, its two sides; a side that a run passes is drawn so.
fn taken_apart(svg: &mut Svg, plan: Plan, rule: u16, (x, y): (f64, f64), (opened, color): (&Opened, &str)) {
    let sides = match plan.rule(rule) {
        Some(Rule::Pair(b, c)) if opened.is_row => Some((b, c)),
        Some(Rule::Join(b, c)) if !opened.is_row => Some((b, c)),
        _ => None,
    };
    if let Some((b, c)) = sides {
        let run = opened.cells.iter().find(|cell| cell[0] >= 3 && cell[1] == rule);
        for (number, side, kind) in [(b, -1.0, 3), (c, 1.0, 4)] {
            let to = (x + 42.0 * side, y + LEVEL);
            let is_run = run.is_some_and(|cell| cell[0] == kind && cell[2] == number);
            let (ink, width) = if is_run { (RUN, 4.0) } else { (LINE, 1.6) };
            svg.line((x, y), to, ink, width);
            if is_run {
                let (told, anchor) = if kind == 3 { ("left", "end") } else { ("right", "start") };
                svg.text(x + 32.0 * side, y + LEVEL / 2.0, anchor, 12.5, RUN, true, told);
                svg.tag(to.0, to.1, number, RUN, true);
            } else {
                taken_apart(svg, plan, number, to, (opened, color));
            }
        }
    }
    svg.tag(x, y, rule, if rule == opened.first { color } else { SOFT }, false);
}

/// The cells with a word for each.
fn cells(svg: &mut Svg, opened: &Opened, (x, y): (f64, f64), color: &str) {
    for (i, [kind, a, b, c]) in opened.cells.iter().enumerate() {
        let y = y + 34.0 * i as f64;
        let (ink, told) = match kind {
            1 => (color, "row".to_owned()),
            2 => (color, "spine".to_owned()),
            3 => (RUN, format!("run left, {a} to {b}")),
            _ => (RUN, format!("run right, {a} to {b}")),
        };
        svg.card(x, y - 19.0, 118.0, 28.0);
        svg.code(x + 59.0, y, "middle", 14.0, ink, &format!("({kind}, {a}, {b}, {c})"));
        svg.text(x + 128.0, y, "start", 13.0, ink, false, &told);
    }
}

fn legend(svg: &mut Svg, (x, y): (f64, f64)) {
    let told = [
        (ROW, "row:", "trees side by side, by pairs"),
        (SPINE, "spine:", "from a tree down through its holes, by joins"),
        (RUN, "run:", "steps to one side, however many, in a cell"),
    ];
    for ((color, name, meaning), x) in told.into_iter().zip([x, x + 300.0, x + 690.0]) {
        svg.text(x, y, "start", 13.0, color, true, name);
        svg.text(x + 8.8 * name.len() as f64 + 8.0, y, "start", 13.0, SOFT, false, meaning);
    }
}
