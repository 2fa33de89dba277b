//! The operations on the forest unfolded into memory, word for word as documents 01 and 02 say them.
pub mod finger;
pub mod forest;
pub mod places;

use crate::copy::{Client, Node};
use crate::place;
use crate::plan::{self, Plan, Rule, cursor_bytes, work_bytes};
use crate::rows::{self, Row};
use crate::{Compared, Format, Measured, Reason, Refused, Why, answers, compare::pair_by_pair, first_stranger};
use finger::Finger;
use forest::{Forest, Tree};
use std::cell::OnceCell;
use std::collections::BTreeMap;

/// A plan, its forest in memory, and the operations on it. Forests of other rules are unfolded when they are walked first.
pub struct Unfolded {
    plan: Vec<u8>,
    n: usize,
    format: Format,
    most: usize,
    start: u16,
    /// The start rule's.
    pub forest: Forest,
    /// Those of the other closed rules, by number; none where there are more nodes than are unfolded.
    others: BTreeMap<u16, OnceCell<Option<Forest>>>,
}

impl Unfolded {
    /// Unfolds an accepted plan, unless its forest has more nodes than this.
    pub fn of(bytes: &[u8], most: usize) -> Option<Unfolded> {
        let plan = plan::read(bytes).ok()?;
        let (n, format, start) = (plan.rules.count(), plan.format(), plan.start);
        let forest = places::unfold(&plan, start, most)?;
        let closed = (0..n as u16).filter(|rule| !matches!(plan.rules.get(*rule), Rule::Part(..) | Rule::Join(..)));
        let others = closed.map(|rule| (rule, OnceCell::new())).collect();
        Some(Unfolded { plan: bytes.to_vec(), n, format, most, start, forest, others })
    }

    /// The forest of the rule that word 1 of cell 0 names, 0 the start and else a number plus one (document 02, Note 10): 10 for a number beyond the
    /// rules or of a holed rule; none where it has more nodes than are unfolded.
    pub fn walked(&self, word: u16) -> Result<Option<&Forest>, Refused> {
        let rule = if word == 0 { self.start } else { word - 1 };
        if rule == self.start {
            return Ok(Some(&self.forest));
        }
        let other = self.others.get(&rule).ok_or(Why::Place.here())?;
        Ok(other.get_or_init(|| places::unfold(&plan::read(&self.plan).ok()?, rule, self.most)).as_ref())
    }

    /// Clears the words of work that n rules need; 8 if there are fewer.
    fn take_work(&self, work: &mut [u8]) -> Result<(), Refused> {
        work.get_mut(..work_bytes(self.n)).ok_or(Why::Lent.here())?.fill(0);
        Ok(())
    }

    pub fn measure(&self, work: &mut [u8]) -> Result<Measured, Refused> {
        self.take_work(work)?;
        Ok(self.forest.measured())
    }

    pub fn spread(&self, work: &mut [u8], out: &mut [u8]) -> Result<u64, Refused> {
        self.take_work(work)?;
        let text = self.forest.text(self.format);
        out.get_mut(..text.len()).ok_or(Why::Output.here())?.copy_from_slice(&text);
        Ok(text.len() as u64)
    }

    pub fn grams(&self, list: &[Row], work: &mut [u8]) -> Result<u64, Refused> {
        rows::check(list)?;
        self.take_work(work)?;
        u64::try_from(self.forest.grams(|label| rows::grams(list, label))).map_err(|_| Why::Output.here())
    }

    /// None where the forest walked has more nodes than are unfolded.
    pub fn walk(
        &self,
        work: &mut [u8],
        cursor: &mut [u8],
        letters: &[u8],
        out: &mut [u8],
    ) -> Option<Result<(), Refused>> {
        self.walk_unfolded(work, cursor, letters, out).transpose()
    }

    fn walk_unfolded(
        &self,
        work: &mut [u8],
        cursor: &mut [u8],
        letters: &[u8],
        out: &mut [u8],
    ) -> Result<Option<()>, Refused> {
        if cursor.len() < cursor_bytes(self.n) || answers::count(out) < letters.len() {
            return Err(Why::Lent.here());
        }
        self.take_work(work)?;
        if let Some(position) = first_stranger(letters) {
            return Err(Why::Letter.at(position));
        }
        let cursor = &mut cursor[..cursor_bytes(self.n)];
        let Some((forest, path)) = self.opened(cursor)? else { return Ok(None) };
        let mut finger = Finger { path };
        for (index, letter) in letters.iter().enumerate() {
            answers::put(out, index, finger.answer(forest, *letter));
        }
        place::store(forest.place_at(&finger.path), cursor);
        Ok(Some(()))
    }

    /// None where a forest walked has more nodes than are unfolded.
    pub fn compare(
        &self,
        work: &mut [u8],
        first: &[u8],
        second: &[u8],
        budget: u32,
    ) -> Option<Result<Compared, Refused>> {
        self.compare_unfolded(work, first, second, budget).transpose()
    }

    fn compare_unfolded(
        &self,
        work: &mut [u8],
        first: &[u8],
        second: &[u8],
        budget: u32,
    ) -> Result<Option<Compared>, Refused> {
        let needed = cursor_bytes(self.n);
        if first.len() < needed || second.len() < needed {
            return Err(Why::Lent.here());
        }
        self.take_work(work)?;
        let Some(first) = self.subtree(&first[..needed])? else { return Ok(None) };
        let Some(second) = self.subtree(&second[..needed])? else { return Ok(None) };
        Ok(Some(pair_by_pair(first.listed(), second.listed(), budget)))
    }

    /// None where the forest walked has more nodes than are unfolded.
    pub fn reason(&self, work: &mut [u8], cursor: &[u8], letter: u8) -> Option<Result<Reason, Refused>> {
        self.reason_unfolded(work, cursor, letter).transpose()
    }

    fn reason_unfolded(&self, work: &mut [u8], cursor: &[u8], letter: u8) -> Result<Option<Reason>, Refused> {
        let cursor = cursor.get(..cursor_bytes(self.n)).ok_or(Why::Lent.here())?;
        self.take_work(work)?;
        if let Some(position) = first_stranger(&[letter]) {
            return Err(Why::Letter.at(position));
        }
        Ok(self.opened(cursor)?.map(|(forest, path)| Reason::of(forest, &path, letter)))
    }

    /// The forest that a client sees: every node, unless it or one above it is of a higher class.
    pub fn visible(&self, client: &Client) -> Vec<Node> {
        client.visible(&self.forest.trees)
    }

    /// The forest that a cursor's word 1 names, and the path to its place there; none where that forest isn't unfolded.
    fn opened(&self, cursor: &[u8]) -> Result<Option<(&Forest, Vec<usize>)>, Refused> {
        let Some(forest) = self.walked(place::word(cursor))? else { return Ok(None) };
        let path = forest.path_of(&place::used(cursor)?).ok_or(Why::Place.here())?;
        Ok(Some((forest, path)))
    }

    /// The subtree at a stored place, which a place above the forest hasn't; none where its forest isn't unfolded.
    fn subtree(&self, cursor: &[u8]) -> Result<Option<&Tree>, Refused> {
        let Some((forest, path)) = self.opened(cursor)? else { return Ok(None) };
        forest.node_at(&path).map(Some).ok_or(Why::Place.here())
    }
}

/// The plan's rules that mean the empty forest: kind 0, and pairs of two such. Each pass finds those over what the pass before found.
pub(crate) fn empty_rules(plan: &Plan) -> Vec<bool> {
    let mut empty = vec![false; plan.rules.count()];
    loop {
        let is_empty = |number| match plan.rules.get(number as u16) {
            Rule::Empty => true,
            Rule::Pair(b, c) => empty[usize::from(b)] && empty[usize::from(c)],
            _ => false,
        };
        let found: Vec<bool> = (0..empty.len()).map(is_empty).collect();
        if found == empty {
            return empty;
        }
        empty = found;
    }
}
