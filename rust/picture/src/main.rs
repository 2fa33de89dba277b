//! Draws the sample plan: its rules, each with what it stands for, the forest, and the cells of one place with the rows, spines and runs that they
//! mean. `picture` prints the drawing as SVG; docs/picture.svg is what it prints.
//!
//! Rules and cells come from the plan by crate `mealplan`. The forest is unfolded here from the rules, and what is marked in it is written down for this
//! plan (`cards::HERE`, `cards::SPINE_PATHS`), as is where things stand on the page; the tests below hold forest and marks to what the library says.
#![forbid(unsafe_code)]

mod cards;
mod forest;
mod svg;
mod way;

use mealplan::{Plan, Refused};
use std::process::ExitCode;
use svg::{INK, SOFT, Svg};

/// The place that is shown: document 01's longest.
const LETTERS: &[u8] = b"afnnfnnn";

const PLAN: &[u8] = include_bytes!("../../../samples/plan.bin");

fn main() -> ExitCode {
    match drawn(PLAN) {
        Ok(drawing) => {
            print!("{drawing}");
            ExitCode::SUCCESS
        }
        Err(refused) => {
            eprintln!("picture: {refused}");
            ExitCode::FAILURE
        }
    }
}

fn drawn(bytes: &[u8]) -> Result<String, Refused> {
    let plan = Plan::new(bytes)?;
    let mut walker = plan.walker();
    walker.walk(LETTERS)?;
    let mut svg = Svg::new(1180.0, 788.0);
    svg.text(40.0, 50.0, "start", 22.0, INK, true, "Eight rules, eleven entries, one place");
    svg.text(1140.0, 50.0, "end", 12.5, SOFT, false, "document 01's sample plan, samples/plan.bin");
    cards::draw(&mut svg, plan);
    way::draw(&mut svg, plan, &walker.place());
    Ok(svg.end())
}

#[cfg(test)]
mod tests {
    use super::*;
    use forest::{Tree, value};

    /// Trees as the library spreads them.
    fn text(trees: &[Tree]) -> Vec<u8> {
        let told = |tree: &Tree| match tree {
            Tree::Node(label, below) => [&[b'(', *label as u8][..], &text(below), b")"].concat(),
            Tree::Hole => b"[]".to_vec(),
        };
        trees.iter().flat_map(told).collect()
    }

    #[test]
    fn the_forest_is_the_librarys() {
        let plan = Plan::new(PLAN).expect("the sample plan");
        assert_eq!(plan.spread(1_000), Ok(text(&value(plan, plan.start()))));
    }

    #[test]
    fn the_marks_are_where_letters_lead() {
        let plan = Plan::new(PLAN).expect("the sample plan");
        let place = |letters: &[u8]| {
            let mut walker = plan.walker();
            walker.walk(letters).expect("letters");
            walker.place()
        };
        // A path as letters: the first root or child, and so many to the right of it.
        let led = |path: &[usize]| {
            let letters = path.iter().enumerate().flat_map(|(level, number)| {
                std::iter::once(if level == 0 { b'a' } else { b'f' }).chain(std::iter::repeat_n(b'n', number - 1))
            });
            place(&letters.collect::<Vec<u8>>())
        };
        assert_eq!(led(cards::HERE), place(LETTERS));
        // The marked spine: both parts stand in the spine of tree 6, and below them the tree in its last hole opens its own.
        let [first, second, last] = cards::SPINE_PATHS.map(|path| led(path).cells().collect::<Vec<[u16; 4]>>());
        assert_eq!(first, [[1, 0, 7, 0], [3, 7, 6, 0], [2, 6, 0, 0], [3, 5, 4, 0]]);
        assert_eq!(second, [[1, 0, 7, 0], [3, 7, 6, 0], [2, 6, 0, 0], [4, 5, 4, 0]]);
        assert_eq!(last, [second, vec![[2, 1, 0, 0]]].concat());
    }
}
