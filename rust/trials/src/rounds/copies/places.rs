//! Hidden nodes in every place of a rule, in plans that are small enough to write down with what is seen of them.
use super::{client, copied};
use crate::copies;
use crate::draft::Draft;
use crate::trial::Trial;
use crate::{random_plans, rounds};
use reference::Format;
use reference::copy;
use reference::plan::Rule::{self, Fill, Join, Node, Pair, Part};
use reference::rows::LAST_CLASS;
use std::collections::BTreeMap;

/// A small plan with hidden nodes at a place: its further rules behind [`GROUND`], of which the last is the start; the forest, and what is seen.
/// A capital is a hidden label.
struct Shape {
    place: &'static str,
    rules: &'static [Rule],
    forest: &'static str,
    seen: &'static str,
}

const fn shape(place: &'static str, rules: &'static [Rule], forest: &'static str, seen: &'static str) -> Shape {
    Shape { place, rules, forest, seen }
}

const A: u32 = b'a' as u32;
const B: u32 = b'b' as u32;
const C: u32 = b'c' as u32;
const D: u32 = b'd' as u32;
const HIDDEN: u32 = b'H' as u32;

/// An empty rule, the leaves a and b and a hidden one, both leaves, and parts c, d and a hidden one between them.
const GROUND: [Rule; 8] = [
    Rule::Empty,
    Node(A, 0),
    Node(B, 0),
    Node(HIDDEN, 0),
    Pair(1, 2),
    Part(C, 1, 2),
    Part(D, 1, 2),
    Part(HIDDEN, 1, 2),
];

const SHAPES: [Shape; 37] = [
    shape("none", &[Fill(5, 1), Pair(8, 4)], "(c(a)(a)(b))(a)(b)", "(c(a)(a)(b))(a)(b)"),
    shape("all", &[Node(HIDDEN, 3), Fill(7, 3), Pair(8, 9)], "(H(H))(H(a)(H)(b))", ""),
    shape("the start", &[Node(HIDDEN, 4)], "(H(a)(b))", ""),
    shape("the first root", &[Pair(3, 4)], "(H)(a)(b)", "(a)(b)"),
    shape("the last root", &[Pair(4, 3)], "(a)(b)(H)", "(a)(b)"),
    shape("a root between two", &[Pair(1, 3), Pair(8, 2)], "(a)(H)(b)", "(a)(b)"),
    shape("a root over others", &[Node(HIDDEN, 4), Pair(8, 2)], "(H(a)(b))(b)", "(b)"),
    shape("the only child", &[Node(C, 3)], "(c(H))", "(c)"),
    shape("the first child", &[Pair(3, 4), Node(C, 8)], "(c(H)(a)(b))", "(c(a)(b))"),
    shape("the last child", &[Pair(4, 3), Node(C, 8)], "(c(a)(b)(H))", "(c(a)(b))"),
    shape(
        "a child over others, between two",
        &[Node(HIDDEN, 4), Pair(1, 8), Pair(9, 2), Node(C, 10)],
        "(c(a)(H(a)(b))(b))",
        "(c(a)(b))",
    ),
    shape("below another", &[Node(HIDDEN, 3), Node(C, 8), Pair(9, 1)], "(c(H(H)))(a)", "(c)(a)"),
    shape("beside empty rules", &[Pair(3, 0), Pair(0, 8), Node(C, 9)], "(c(H))", "(c)"),
    shape("in L", &[Part(C, 3, 2), Fill(8, 1)], "(c(H)(a)(b))", "(c(a)(b))"),
    shape("at the end of L", &[Pair(1, 3), Part(C, 8, 2), Fill(9, 2)], "(c(a)(H)(b)(b))", "(c(a)(b)(b))"),
    shape("in R", &[Part(C, 1, 3), Fill(8, 2)], "(c(a)(b)(H))", "(c(a)(b))"),
    shape("at the front of R", &[Pair(3, 1), Part(C, 2, 8), Fill(9, 2)], "(c(b)(b)(H)(a))", "(c(b)(b)(a))"),
    shape("in both arms", &[Pair(3, 3), Part(C, 8, 3), Fill(9, 1)], "(c(H)(H)(a)(H))", "(c(a))"),
    shape("in the hole", &[Fill(5, 3)], "(c(a)(H)(b))", "(c(a)(b))"),
    shape("in the hole, over others", &[Node(HIDDEN, 4), Fill(5, 8)], "(c(a)(H(a)(b))(b))", "(c(a)(b))"),
    shape("in the hole between empty arms", &[Part(C, 0, 0), Fill(8, 3)], "(c(H))", "(c)"),
    shape("in the hole and both arms", &[Part(C, 3, 3), Fill(8, 3)], "(c(H)(H)(H))", "(c)"),
    shape("a part", &[Fill(7, 1)], "(H(a)(a)(b))", ""),
    shape("a part between two", &[Fill(7, 1), Pair(1, 8), Pair(9, 2)], "(a)(H(a)(a)(b))(b)", "(a)(b)"),
    shape("the part of a filler", &[Fill(7, 1), Fill(5, 8)], "(c(a)(H(a)(a)(b))(b))", "(c(a)(b))"),
    shape("the filler of a filler", &[Fill(6, 3), Fill(5, 8)], "(c(a)(d(a)(H)(b))(b))", "(c(a)(d(a)(b))(b))"),
    shape("the outer part of a join", &[Join(7, 5), Fill(8, 1)], "(H(a)(c(a)(a)(b))(b))", ""),
    shape("the inner part of a join", &[Join(5, 7), Fill(8, 1)], "(c(a)(H(a)(a)(b))(b))", "(c(a)(b))"),
    shape("the first of joins", &[Join(7, 5), Join(8, 6), Fill(9, 1)], "(H(a)(c(a)(d(a)(a)(b))(b))(b))", ""),
    shape(
        "the middle of joins to the left",
        &[Join(5, 7), Join(8, 6), Fill(9, 1)],
        "(c(a)(H(a)(d(a)(a)(b))(b))(b))",
        "(c(a)(b))",
    ),
    shape(
        "the middle of joins to the right",
        &[Join(7, 6), Join(5, 8), Fill(9, 1)],
        "(c(a)(H(a)(d(a)(a)(b))(b))(b))",
        "(c(a)(b))",
    ),
    shape(
        "the end of joins to the left",
        &[Join(5, 6), Join(8, 7), Fill(9, 2)],
        "(c(a)(d(a)(H(a)(b)(b))(b))(b))",
        "(c(a)(d(a)(b))(b))",
    ),
    shape(
        "the end of joins to the right",
        &[Join(6, 7), Join(5, 8), Fill(9, 2)],
        "(c(a)(d(a)(H(a)(b)(b))(b))(b))",
        "(c(a)(d(a)(b))(b))",
    ),
    shape(
        "in the hole of joins",
        &[Join(5, 6), Join(8, 8), Fill(9, 3)],
        "(c(a)(d(a)(c(a)(d(a)(H)(b))(b))(b))(b))",
        "(c(a)(d(a)(c(a)(d(a)(b))(b))(b))(b))",
    ),
    shape(
        "in the hole of one join, and that of another filled",
        &[Join(5, 6), Fill(8, 3), Fill(8, 1), Pair(9, 10)],
        "(c(a)(d(a)(H)(b))(b))(c(a)(d(a)(a)(b))(b))",
        "(c(a)(d(a)(b))(b))(c(a)(d(a)(a)(b))(b))",
    ),
    shape(
        "one rule in many places",
        &[Part(C, 3, 3), Fill(8, 3), Pair(3, 9), Node(D, 10), Pair(11, 3)],
        "(d(H)(c(H)(H)(H)))(H)",
        "(d(c))",
    ),
    shape("in rules that nothing reaches", &[Fill(7, 3), Node(HIDDEN, 8), Pair(1, 2)], "(a)(b)", "(a)(b)"),
];

/// All of them.
pub(super) fn each(trial: &mut Trial) {
    SHAPES.iter().for_each(|shape| place(trial, shape));
}

/// A shape in either format and any order, for a client of a class below the last, with labels of its own.
fn place(trial: &mut Trial, shape: &Shape) {
    let random = &mut trial.random;
    let format = random.pick(&Format::BOTH);
    let mut labels = BTreeMap::new();
    for letter in [A, B, C, D, HIDDEN] {
        let mut label = random_plans::label(format, random);
        while labels.values().any(|other| *other == label) {
            label = random_plans::label(format, random);
        }
        labels.insert(letter, label);
    }
    let mut draft = Draft { format, ..Draft::default() };
    for rule in GROUND.iter().chain(shape.rules) {
        draft.add(*rule);
    }
    let draft = draft.relabelled(|letter| labels[&letter]);
    let class = random.below(LAST_CLASS.into()) as u16;
    let seen = labels.iter().map(|(letter, label)| (*label, *letter != HIDDEN)).collect();
    let client = client(random, class, &seen);
    let draft = rounds::in_any_order(random, draft);
    let whole = copies::unfolded(&draft.plan(), 30);
    assert_eq!(whole, Some(forest(shape.forest, &labels)), "{} is {}", shape.place, shape.forest);
    let copy = copied(trial, &draft, &client);
    let came = copies::unfolded(&copy, 30);
    assert_eq!(came, Some(forest(shape.seen, &labels)), "{}: of {} is seen {}", shape.place, shape.forest, shape.seen);
    trial.tally.place(shape.place);
}

/// The forest of a text, in which each label is a letter.
fn forest(text: &str, labels: &BTreeMap<u32, u32>) -> Vec<copy::Node> {
    let mut open: Vec<Vec<copy::Node>> = vec![Vec::new()];
    let mut above = Vec::new();
    for byte in text.bytes() {
        match byte {
            b'(' => open.push(Vec::new()),
            b')' => {
                let below = open.pop().expect("a bracket is open");
                let label = above.pop().expect("a bracket has a label");
                open.last_mut().expect("a bracket is open").push(copy::Node { label, below });
            }
            letter => above.push(labels[&letter.into()]),
        }
    }
    open.pop().expect("all brackets are shut")
}
