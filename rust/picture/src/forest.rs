//! What a rule stands for, as trees with perhaps a hole, and these drawn.
use crate::svg::{INK, LINE, Svg};
use mealplan::{Label, Plan, Rule};

/// A tree of what a rule stands for, or its hole.
#[derive(Clone, Debug)]
pub enum Tree {
    Node(Label, Vec<Tree>),
    Hole,
}

/// What a rule of a plan stands for. A checked plan has every rule that another names, and none that reaches itself.
pub fn value(plan: Plan, rule: u16) -> Vec<Tree> {
    match plan.rule(rule) {
        None | Some(Rule::Empty) => Vec::new(),
        Some(Rule::Pair(b, c)) => [value(plan, b), value(plan, c)].concat(),
        Some(Rule::Node(label, c)) => vec![Tree::Node(label, value(plan, c))],
        Some(Rule::Part(label, l, r)) => {
            vec![Tree::Node(label, [value(plan, l), vec![Tree::Hole], value(plan, r)].concat())]
        }
        Some(Rule::Fill(b, c) | Rule::Join(b, c)) => filled(value(plan, b), &value(plan, c)),
    }
}

/// Trees with their hole filled by others.
fn filled(trees: Vec<Tree>, by: &[Tree]) -> Vec<Tree> {
    let fill = |tree| match tree {
        Tree::Hole => by.to_vec(),
        Tree::Node(label, below) => vec![Tree::Node(label, filled(below, by))],
    };
    trees.into_iter().flat_map(fill).collect()
}

/// How trees are drawn: the width of a leaf, the height of a level and the radius of a node.
#[derive(Clone, Copy)]
pub struct Scale {
    pub leaf: f64,
    pub level: f64,
    pub radius: f64,
}

/// A node where it is drawn, with its path and its label; a hole has none.
#[derive(Clone, Debug)]
pub struct Spot {
    pub path: Vec<usize>,
    pub x: f64,
    pub y: f64,
    label: Option<Label>,
}

/// So many leaves wide.
pub fn leaves(trees: &[Tree]) -> usize {
    let wide = |tree: &Tree| match tree {
        Tree::Node(_, below) => leaves(below).max(1),
        Tree::Hole => 1,
    };
    trees.iter().map(wide).sum()
}

/// Where each node is drawn, in reading order, with the upper left corner given.
pub fn spots(trees: &[Tree], (x, y): (f64, f64), scale: Scale) -> Vec<Spot> {
    let mut spots = Vec::new();
    place(trees, &[], (x, y + scale.radius), scale, &mut spots);
    spots
}

fn place(trees: &[Tree], above: &[usize], (mut x, y): (f64, f64), scale: Scale, spots: &mut Vec<Spot>) {
    for (i, tree) in trees.iter().enumerate() {
        let width = leaves(std::slice::from_ref(tree)) as f64 * scale.leaf;
        let path = [above, &[i + 1]].concat();
        let spot = |label| Spot { path: path.clone(), x: x + width / 2.0, y, label };
        match tree {
            Tree::Node(label, below) => {
                spots.push(spot(Some(*label)));
                place(below, &path, (x, y + scale.level), scale, spots);
            }
            Tree::Hole => spots.push(spot(None)),
        }
        x += width;
    }
}

/// Draws nodes and the lines between them. A line to one of the marked paths is wide and in that color.
pub fn draw(svg: &mut Svg, spots: &[Spot], scale: Scale, marked: &[Vec<usize>], color: &str) {
    for spot in spots {
        let parent = spot.path.split_last().and_then(|(_, above)| spots.iter().find(|other| other.path == above));
        if let Some(parent) = parent {
            let is_marked = marked.contains(&spot.path) && marked.contains(&parent.path);
            let (ink, width) = if is_marked { (color, 4.0) } else { (LINE, 1.6) };
            svg.line((parent.x, parent.y), (spot.x, spot.y), ink, width);
        }
    }
    for Spot { path, x, y, label } in spots {
        let Some(label) = label else {
            svg.hole(*x, *y, 0.85 * scale.radius);
            continue;
        };
        let (ink, width) = if marked.contains(path) { (color, 3.0) } else { (INK, 1.4) };
        svg.circle(*x, *y, scale.radius, fill(*label), ink, width);
        let name = char::from_u32(*label).unwrap_or('?').to_string();
        svg.text(*x, y + 0.36 * scale.radius, "middle", 1.1 * scale.radius, INK, true, &name);
    }
}

/// A pale color for a label.
fn fill(label: Label) -> &'static str {
    ["#fdf0c4", "#f9d9d3", "#e4dcf5"][(label as usize + 2) % 3]
}
