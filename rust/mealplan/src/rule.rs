//! A plan's rules as values.
use crate::{Format, Label};

/// A rule by its right-hand side: first a node's label, then the rules that it names. Empty, pair, node and fill are closed; part and join have a
/// hole.
#[derive(Clone, Copy, PartialEq, Eq, Hash, Debug)]
pub enum Rule {
    /// The empty forest.
    Empty,
    /// The forest of the first rule followed by that of the second.
    Pair(u16, u16),
    /// One node over a forest.
    Node(Label, u16),
    /// A holed rule with its hole filled by a tree.
    Fill(u16, u16),
    /// One node over a forest, a hole and another forest.
    Part(Label, u16, u16),
    /// A holed rule with its hole filled by another holed rule.
    Join(u16, u16),
}

/// The most words of a rule; a narrow plan's have no fifth.
const WORDS: usize = 5;

impl Rule {
    /// The words of the rule, of which a plan of this format has the first four or all five. A label that the format doesn't have gives words that
    /// [`seal`](crate::seal) refuses with 4.
    pub fn words(self, format: Format) -> [u16; 5] {
        let low = |label: Label| match format {
            Format::Narrow => label.min(u16::MAX.into()) as u16,
            Format::Wide => label as u16,
        };
        let high = |label: Label| match format {
            Format::Narrow => 0,
            Format::Wide => (label >> 16) as u16,
        };
        match self {
            Rule::Empty => [0, 0, 0, 0, 0],
            Rule::Pair(b, c) => [1, b, c, 0, 0],
            Rule::Node(label, c) => [2, low(label), c, 0, high(label)],
            Rule::Fill(b, c) => [3, b, c, 0, 0],
            Rule::Part(label, l, r) => [4, low(label), l, r, high(label)],
            Rule::Join(b, c) => [5, b, c, 0, 0],
        }
    }

    /// The rule that the words of an accepted plan mean: as many as its format has, two bytes each, low first.
    pub(crate) fn from_record(record: &[u8]) -> Rule {
        let mut words = [0; WORDS];
        for (word, bytes) in words.iter_mut().zip(record.as_chunks().0) {
            *word = u16::from_le_bytes(*bytes);
        }
        let [kind, a, b, c, high] = words;
        let label = Label::from(a) | Label::from(high) << 16;
        match kind {
            0 => Rule::Empty,
            1 => Rule::Pair(a, b),
            2 => Rule::Node(label, b),
            3 => Rule::Fill(a, b),
            4 => Rule::Part(label, b, c),
            _ => Rule::Join(a, b),
        }
    }

    /// The label of a node or part.
    pub fn label(self) -> Option<Label> {
        match self {
            Rule::Node(label, _) | Rule::Part(label, _, _) => Some(label),
            _ => None,
        }
    }

    /// The rules named, in their order.
    ///
    /// ```
    /// use mealplan::Rule;
    /// assert!(Rule::Part(99, 3, 2).named().eq([3, 2]));
    /// ```
    pub fn named(self) -> impl Iterator<Item = u16> {
        let (first, second) = match self {
            Rule::Empty => (None, None),
            Rule::Node(_, c) => (Some(c), None),
            Rule::Pair(b, c) | Rule::Fill(b, c) | Rule::Part(_, b, c) | Rule::Join(b, c) => (Some(b), Some(c)),
        };
        first.into_iter().chain(second)
    }

    /// Whether the rule has a hole.
    pub fn is_holed(self) -> bool {
        matches!(self, Rule::Part(..) | Rule::Join(..))
    }
}

/// Writes rules as a plan without cover. What [`seal`](crate::seal) refuses is refused: a list of rules need not be a plan.
///
/// ```
/// use mealplan::{Format, Plan, Rule, seal_rules};
///
/// // One node, 97, over an empty forest; the start is rule 1.
/// let bytes = seal_rules(&[Rule::Empty, Rule::Node(97, 0)], Format::Narrow, 1)?;
/// assert_eq!(Plan::new(&bytes)?.measure()?.entries, 1);
///
/// // A rule that names itself.
/// let refused = seal_rules(&[Rule::Pair(0, 0)], Format::Narrow, 0).unwrap_err();
/// assert_eq!(refused.to_string(), "refused 12 at 0: rule 0 reaches itself through the rules it names");
/// # Ok::<(), mealplan::Refused>(())
/// ```
#[cfg(feature = "alloc")]
pub fn seal_rules(rules: &[Rule], format: Format, start: u16) -> Result<alloc::vec::Vec<u8>, crate::Refused> {
    let used = usize::from(format.record_length()) / 2;
    let words: alloc::vec::Vec<u8> =
        rules.iter().flat_map(|rule| rule.words(format).into_iter().take(used)).flat_map(u16::to_le_bytes).collect();
    let mut plan = alloc::vec![0; words.len() + crate::TRAILER];
    crate::seal(&words, format.record_length(), start, &mut plan)?;
    Ok(plan)
}
