//! A card for each rule, with what it stands for; that of the start rule is large and has the forest.
use crate::forest::{self, Scale, leaves, spots, value};
use crate::svg::{INK, ROW, RUN, SOFT, SPINE, Svg};
use mealplan::{Plan, Rule};

const SMALL: Scale = Scale { leaf: 25.0, level: 34.0, radius: 9.5 };
const LARGE: Scale = Scale { leaf: 46.0, level: 66.0, radius: 16.0 };

/// Where the cards stand: x, y, width and height, rule 0 first; the last is the start rule's.
const CARDS: [(f64, f64, f64, f64); 8] = [
    (40.0, 78.0, 152.0, 112.0),
    (204.0, 78.0, 152.0, 112.0),
    (368.0, 78.0, 152.0, 112.0),
    (532.0, 78.0, 152.0, 112.0),
    (40.0, 202.0, 206.0, 178.0),
    (259.0, 202.0, 206.0, 178.0),
    (478.0, 202.0, 206.0, 178.0),
    (700.0, 78.0, 440.0, 302.0),
];

/// The path to the node of the place, and those along the spine of the first tree.
pub const HERE: &[usize] = &[1, 3, 4];
pub const SPINE_PATHS: [&[usize]; 3] = [&[1], &[1, 3], &[1, 3, 3]];

/// A rule's right-hand side in words, and what that means.
fn told(rule: Rule) -> (String, String) {
    let name = |label| char::from_u32(label).unwrap_or('?');
    match rule {
        Rule::Empty => ("empty".into(), "no trees".into()),
        Rule::Pair(b, c) => (format!("pair {b} {c}"), format!("{b}, then {c}")),
        Rule::Node(label, c) => (format!("node {} {c}", name(label)), format!("{} over {c}", name(label))),
        Rule::Fill(b, c) => (format!("fill {b} {c}"), format!("{c} in the hole of {b}, none left")),
        Rule::Part(label, l, r) => {
            (format!("part {} {l} {r}", name(label)), format!("{} over {l}, a hole and {r}", name(label)))
        }
        Rule::Join(b, c) => (format!("join {b} {c}"), format!("{c} in the hole of {b}, one left")),
    }
}

pub fn draw(svg: &mut Svg, plan: Plan) {
    for ((number, rule), (x, y, width, height)) in plan.rules().enumerate().zip(CARDS) {
        let number = number as u16;
        let is_start = number == plan.start();
        let (code, meaning) = told(rule);
        svg.card(x, y, width, height);
        svg.tag(x + 28.0, y + 24.0, number, INK, is_start);
        svg.code(x + 54.0, y + 29.0, "start", 14.0, INK, &code);
        let meaning = if is_start { format!("the start: {meaning}. This is the plan's forest.") } else { meaning };
        svg.text(x + 12.0, y + 56.0, "start", 12.5, SOFT, false, &meaning);
        if is_start {
            whole(svg, plan, (x, y, width));
        } else {
            let trees = value(plan, number);
            let left = x + (width - leaves(&trees) as f64 * SMALL.leaf) / 2.0;
            let spots = spots(&trees, (left, y + 72.0), SMALL);
            forest::draw(svg, &spots, SMALL, &[], INK);
        }
    }
}

/// The forest, with the row of its roots, the spine of its first tree, the row right of the lower part's hole, and the node of the place.
fn whole(svg: &mut Svg, plan: Plan, (x, y, width): (f64, f64, f64)) {
    let trees = value(plan, plan.start());
    let left = x + (width - leaves(&trees) as f64 * LARGE.leaf) / 2.0;
    let spots = spots(&trees, (left, y + 94.0), LARGE);
    let at = |path: &[usize]| spots.iter().find(|spot| spot.path == path).map_or((0.0, 0.0), |spot| (spot.x, spot.y));
    let band = |svg: &mut Svg, first: (f64, f64), last: (f64, f64)| {
        let margin = LARGE.radius + 8.0;
        svg.band(first.0 - margin, first.1 - margin, last.0 - first.0 + 2.0 * margin, 2.0 * margin, ROW);
    };
    band(svg, at(&[1]), at(&[3]));
    band(svg, at(HERE), at(HERE));
    let spine = SPINE_PATHS.map(<[usize]>::to_vec);
    forest::draw(svg, &spots, LARGE, &spine, SPINE);
    let (here_x, here_y) = at(HERE);
    svg.circle(here_x, here_y, LARGE.radius + 3.5, "none", RUN, 3.0);
    svg.text(here_x, here_y + 44.0, "middle", 12.5, RUN, true, "this b");
    let (row_x, row_y) = at(&[3]);
    svg.text(row_x + 24.0, row_y - 32.0, "end", 12.5, ROW, true, "row of rule 7");
    let (spine_x, spine_y) = at(&[1]);
    svg.text(spine_x - 34.0, spine_y + 5.0, "end", 12.5, SPINE, true, "spine of tree 6");
}
