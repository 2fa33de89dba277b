//! A checked plan.
use crate::{Checked, Format, Refused, Rule, TRAILER, check, words_bytes};
#[cfg(feature = "alloc")]
use crate::{Classes, LAST_LABEL, LabelRow, Measured, Walker};
#[cfg(feature = "alloc")]
use crate::{copy, copy_bytes, grams, measure, spread, text_bytes, work_bytes};
#[cfg(feature = "alloc")]
use alloc::{vec, vec::Vec};
use core::slice::ChunksExact;

/// A plan: bytes that were checked, so that nobody need ask again.
///
/// ```
/// use mealplan::{Format, Plan, Rule};
/// # let bytes = std::fs::read(concat!(env!("CARGO_MANIFEST_DIR"), "/../../samples/plan.bin")).unwrap();
/// let plan = Plan::new(&bytes)?;
/// assert_eq!((plan.n(), plan.start(), plan.format()), (8, 7, Format::Narrow));
/// assert_eq!(plan.rule(7), Some(Rule::Pair(6, 3)));
/// assert_eq!(plan.rule(8), None);
/// # Ok::<(), mealplan::Refused>(())
/// ```
#[derive(Clone, Copy, PartialEq, Eq, Debug)]
pub struct Plan<'a> {
    bytes: &'a [u8],
    checked: Checked,
}

impl<'a> Plan<'a> {
    /// Checks a plan's bytes, with its cover if it has one. Refused with 1 to 7 or 12.
    pub fn new(bytes: &'a [u8]) -> Result<Plan<'a>, Refused> {
        check(bytes).map(|checked| Plan { bytes, checked })
    }

    /// The bytes as they were lent.
    pub fn bytes(self) -> &'a [u8] {
        self.bytes
    }

    /// The number of rules.
    pub fn n(self) -> u16 {
        self.checked.n
    }

    /// The start rule.
    pub fn start(self) -> u16 {
        self.checked.start
    }

    /// What its mark says: narrow or wide.
    pub fn format(self) -> Format {
        Format::from_accepted(self.bytes)
    }

    /// The bytes before the first rule and those of the rules. A checked plan has both.
    fn parts(self) -> (&'a [u8], &'a [u8]) {
        let rules = self.bytes.len().saturating_sub(TRAILER);
        let first = rules.saturating_sub(words_bytes(self.n().into(), self.format()));
        self.bytes.split_at_checked(rules).unwrap_or_default().0.split_at_checked(first).unwrap_or_default()
    }

    /// The rules' records, rule 0's first.
    fn records(self) -> ChunksExact<'a, u8> {
        self.parts().1.chunks_exact(self.format().record_length().into())
    }

    /// The bytes before the first rule, which no function reads: document 01's cover.
    pub fn prefix(self) -> &'a [u8] {
        self.parts().0
    }

    /// The rules, rule 0 first.
    pub fn rules(self) -> impl ExactSizeIterator<Item = Rule> + 'a {
        self.records().map(Rule::from_record)
    }

    /// A rule by its number.
    pub fn rule(self, number: u16) -> Option<Rule> {
        self.records().nth(number.into()).map(Rule::from_record)
    }
}

impl<'a> TryFrom<&'a [u8]> for Plan<'a> {
    type Error = Refused;

    fn try_from(bytes: &'a [u8]) -> Result<Plan<'a>, Refused> {
        Plan::new(bytes)
    }
}

/// The operations on a plan, each lending what it needs.
#[cfg(feature = "alloc")]
impl<'a> Plan<'a> {
    fn work(self) -> Vec<u8> {
        vec![0; work_bytes(self.n().into())]
    }

    /// Counts trees, entries and levels. Entries are the nodes that are no divider lines. Refused with 11 for more than 2^64 − 1 nodes.
    ///
    /// ```
    /// use mealplan::{DIVIDER, Format, Plan, Rule, seal_rules};
    /// # let bytes = std::fs::read(concat!(env!("CARGO_MANIFEST_DIR"), "/../../samples/plan.bin")).unwrap();
    /// let size = Plan::new(&bytes)?.measure()?;
    /// assert_eq!((size.trees, size.entries, size.levels), (3, 11, 3));
    ///
    /// // An entry over a divider, and another behind both.
    /// let rules = [Rule::Empty, Rule::Node(DIVIDER, 0), Rule::Node(97, 1), Rule::Node(98, 0), Rule::Pair(2, 3)];
    /// let bytes = seal_rules(&rules, Format::Narrow, 4)?;
    /// let plan = Plan::new(&bytes)?;
    /// let size = plan.measure()?;
    /// assert_eq!((size.trees, size.entries, size.levels), (2, 2, 2));
    /// assert_eq!(plan.nodes()?, 3);
    /// # Ok::<(), mealplan::Refused>(())
    /// ```
    pub fn measure(self) -> Result<Measured, Refused> {
        measure(self.bytes, &mut self.work())
    }

    /// The number of nodes, dividers too. Refused with 11 for more than 2^64 − 1.
    ///
    /// ```
    /// # let bytes = std::fs::read(concat!(env!("CARGO_MANIFEST_DIR"), "/../../samples/plan.bin")).unwrap();
    /// assert_eq!(mealplan::Plan::new(&bytes)?.nodes()?, 11);
    /// # Ok::<(), mealplan::Refused>(())
    /// ```
    pub fn nodes(self) -> Result<u64, Refused> {
        self.nodes_by(&mut self.work())
    }

    /// The same in work that is lent: the grams, where each node weighs one.
    fn nodes_by(self, work: &mut [u8]) -> Result<u64, Refused> {
        grams(self.bytes, &[LabelRow::new(0, LAST_LABEL, 0).weighing(1)], work)
    }

    /// The grams of all nodes, each by the row that covers its label. Refused with 11 for more than 2^64 − 1; a forest of more nodes than that is
    /// weighed where its grams fit.
    ///
    /// ```
    /// use mealplan::{Classes, LAST_LABEL, LabelRow, Plan};
    /// # let bytes = std::fs::read(concat!(env!("CARGO_MANIFEST_DIR"), "/../../samples/plan.bin")).unwrap();
    /// let rows = [
    ///     LabelRow::new(0, 97, 0).weighing(120),
    ///     LabelRow::new(98, 98, 2).weighing(30),
    ///     LabelRow::new(99, LAST_LABEL, 1).weighing(250),
    /// ];
    /// let (plan, classes) = (Plan::new(&bytes)?, Classes::new(&rows)?);
    /// // Four nodes have label 97, five 98 and two 99.
    /// assert_eq!(plan.grams(classes)?, 4 * 120 + 5 * 30 + 2 * 250);
    /// // The copy for a client of class 1 is without the five.
    /// let copy = plan.copy(classes, 1)?;
    /// assert_eq!(Plan::new(&copy)?.grams(classes)? + 5 * 30, plan.grams(classes)?);
    /// # Ok::<(), mealplan::Refused>(())
    /// ```
    pub fn grams(self, classes: Classes) -> Result<u64, Refused> {
        grams(self.bytes, classes.rows(), &mut self.work())
    }

    /// The forest as text, of at most so many bytes. Refused with 11 where it is longer, or where there is no memory for it.
    ///
    /// ```
    /// # let bytes = std::fs::read(concat!(env!("CARGO_MANIFEST_DIR"), "/../../samples/plan.bin")).unwrap();
    /// let plan = mealplan::Plan::new(&bytes)?;
    /// assert_eq!(plan.spread(1_000)?, b"(c(a)(b)(c(a)(b)(a)(b))(b))(a)(b)");
    /// assert_eq!(plan.spread(32).unwrap_err().number, 11);
    /// # Ok::<(), mealplan::Refused>(())
    /// ```
    pub fn spread(self, most: usize) -> Result<Vec<u8>, Refused> {
        let room = crate::Refusal::Room.at(0);
        let mut work = self.work();
        let nodes = self.nodes_by(&mut work)?;
        let length = text_bytes(nodes, self.format()).filter(|length| *length <= most).ok_or(room)?;
        let mut text = Vec::new();
        text.try_reserve_exact(length).map_err(|_| room)?;
        text.resize(length, 0);
        spread(self.bytes, &mut work, &mut text)?;
        Ok(text)
    }

    /// The copy of the plan for a client of a class, a wide plan without cover: its forest is this one's with every node of a higher class gone
    /// and all below it. Refused with 13 for a class above 3, with 16 for a plan of more than 4,096 rules.
    ///
    /// ```
    /// use mealplan::{Classes, LAST_LABEL, LabelRow, Plan};
    /// # let bytes = std::fs::read(concat!(env!("CARGO_MANIFEST_DIR"), "/../../samples/plan.bin")).unwrap();
    /// let rows = [LabelRow::new(0, 97, 0), LabelRow::new(98, 98, 2), LabelRow::new(99, LAST_LABEL, 1)];
    /// let copy = Plan::new(&bytes)?.copy(Classes::new(&rows)?, 1)?;
    /// // Of the eleven nodes five have label 98, which a client of class 1 doesn't see.
    /// assert_eq!(Plan::new(&copy)?.nodes()?, 6);
    /// # Ok::<(), mealplan::Refused>(())
    /// ```
    pub fn copy(self, classes: Classes, class: u16) -> Result<Vec<u8>, Refused> {
        let mut out = vec![0; copy_bytes(self.n().into())];
        let length = copy(self.bytes, classes.rows(), class, &mut self.work(), &mut out)?;
        out.truncate(length);
        Ok(out)
    }

    /// A walker above the plan's forest.
    pub fn walker(self) -> Walker<'a> {
        Walker::new(self)
    }

    /// A walker above the forest of one closed rule, say one day of the plan: the roots are then that rule's. Any closed rule can be walked, an empty one
    /// and one that the start doesn't reach, too. Refused with 10 where the plan has no such rule or it is holed.
    ///
    /// ```
    /// # let bytes = std::fs::read(concat!(env!("CARGO_MANIFEST_DIR"), "/../../samples/plan.bin")).unwrap();
    /// let plan = mealplan::Plan::new(&bytes)?;
    /// // Rule 3 is the pair of two leaves.
    /// let mut walker = plan.walker_of(3)?;
    /// assert_eq!(walker.walk(b"annu")?, [Some(97), Some(98), None, None]);
    /// assert_eq!((walker.rule(), plan.walker().rule()), (3, 7));
    /// // Rule 4 has a hole, and there is no rule 8.
    /// assert_eq!(plan.walker_of(4).unwrap_err().number, 10);
    /// assert_eq!(plan.walker_of(8).unwrap_err().number, 10);
    /// # Ok::<(), mealplan::Refused>(())
    /// ```
    pub fn walker_of(self, rule: u16) -> Result<Walker<'a>, Refused> {
        Walker::of_rule(self, rule)
    }
}
