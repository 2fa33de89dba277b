//! A walker that owns its buffers.
use crate::cursor::{self, rule_word, stand_above};
use crate::{
    Compared, Label, Place, Plan, Reason, Refusal, Refused, answers_bytes, compare, cursor_bytes, labels, reason, walk,
    work_bytes,
};
use alloc::{vec, vec::Vec};
use core::fmt;

/// A walker over a plan's forest, or over that of one of its rules. It begins above the forest, from where only the roots lead. A move gives the label of
/// the node arrived at; one that leads nowhere gives none and keeps the place.
///
/// Every move reads the plan anew, in time that goes by its rules, as nothing is kept between the library's calls. [`Walker::walk`] takes many
/// letters in one call.
///
/// ```
/// use mealplan::Plan;
/// # let bytes = std::fs::read(concat!(env!("CARGO_MANIFEST_DIR"), "/../../samples/plan.bin")).unwrap();
/// let mut walker = Plan::new(&bytes)?.walker();
/// assert_eq!(walker.label(), None);
/// assert_eq!(walker.first_root(), Some(99));
/// assert_eq!(walker.first_child(), Some(97));
/// assert_eq!(walker.previous_sibling(), None);
/// assert_eq!(walker.next_sibling(), Some(98));
/// assert_eq!(walker.parent(), Some(99));
/// assert_eq!(walker.parent(), None);
/// assert_eq!(walker.label(), Some(99));
/// # Ok::<(), mealplan::Refused>(())
/// ```
#[derive(Clone)]
pub struct Walker<'a> {
    plan: Plan<'a>,
    work: Vec<u8>,
    cursor: Vec<u8>,
    label: Option<Label>,
}

impl<'a> Walker<'a> {
    /// A walker above the forest of a plan, with buffers that fit it.
    pub fn new(plan: Plan<'a>) -> Walker<'a> {
        let n = plan.n().into();
        Walker { plan, work: vec![0; work_bytes(n)], cursor: vec![0; cursor_bytes(n)], label: None }
    }

    /// A walker above the forest of one closed rule, which the start needn't reach. Refused with 10 where the plan has no such rule or it is holed.
    pub fn of_rule(plan: Plan<'a>, rule: u16) -> Result<Walker<'a>, Refused> {
        let mut walker = Walker::new(plan);
        stand_above(&mut walker.cursor, rule_word(rule));
        walker.walk(b"")?;
        Ok(walker)
    }

    /// The plan that is walked.
    pub fn plan(&self) -> Plan<'a> {
        self.plan
    }

    /// The rule whose forest is walked: the start, unless the walker was made for another or went to a place of another.
    pub fn rule(&self) -> u16 {
        cursor::word(&self.cursor).checked_sub(1).unwrap_or(self.plan.start())
    }

    /// The label of the node where the walker stands; none above the forest.
    pub fn label(&self) -> Option<Label> {
        self.label
    }

    /// How many cells the place has; none above the forest.
    pub fn cell_count(&self) -> usize {
        cursor::cells(&self.cursor)
    }

    /// To the root of the first tree.
    pub fn first_root(&mut self) -> Option<Label> {
        self.go(b'a')
    }

    /// To the root of the last tree.
    pub fn last_root(&mut self) -> Option<Label> {
        self.go(b'z')
    }

    /// To the node's first child.
    pub fn first_child(&mut self) -> Option<Label> {
        self.go(b'f')
    }

    /// To the node's last child.
    pub fn last_child(&mut self) -> Option<Label> {
        self.go(b'l')
    }

    /// To the node's next sibling; the roots are siblings.
    pub fn next_sibling(&mut self) -> Option<Label> {
        self.go(b'n')
    }

    /// To the node's previous sibling.
    pub fn previous_sibling(&mut self) -> Option<Label> {
        self.go(b'p')
    }

    /// To the node's parent; a root has none.
    pub fn parent(&mut self) -> Option<Label> {
        self.go(b'u')
    }

    /// One letter. A walker's call isn't refused: the plan was checked, the buffers fit it, the letter is one, and what the cursor holds was left
    /// by an accepted call.
    fn go(&mut self, letter: u8) -> Option<Label> {
        let mut answer = [0; answers_bytes(1)];
        walk(self.plan.bytes(), &mut self.work, &mut self.cursor, &[letter], &mut answer).ok()?;
        let label = labels(&answer).next()?;
        self.label = label.or(self.label);
        label
    }

    /// Walks by letters, document 01's a z f l n p u s, in one call. For each there is the label of the node arrived at, or none for nowhere. Refused
    /// with 9 at the first byte that is no letter, and then nothing was walked.
    ///
    /// ```
    /// # let bytes = std::fs::read(concat!(env!("CARGO_MANIFEST_DIR"), "/../../samples/plan.bin")).unwrap();
    /// let mut walker = mealplan::Plan::new(&bytes)?.walker();
    /// assert_eq!(walker.walk(b"afp")?, [Some(99), Some(97), None]);
    /// assert_eq!(walker.walk(b"nx").unwrap_err().position, 1);
    /// assert_eq!(walker.label(), Some(97));
    /// # Ok::<(), mealplan::Refused>(())
    /// ```
    pub fn walk(&mut self, letters: &[u8]) -> Result<Vec<Option<Label>>, Refused> {
        let mut answers = vec![0; answers_bytes(letters.len())];
        walk(self.plan.bytes(), &mut self.work, &mut self.cursor, letters, &mut answers)?;
        let answers: Vec<Option<Label>> = labels(&answers).collect();
        self.label = answers.iter().rev().find_map(|label| *label).or(self.label);
        Ok(answers)
    }

    /// Why a letter, one of a z f l n p u s, moves or doesn't from here, in the forest of the rule that is walked. Nothing moves. Refused with 9 at 0 for a
    /// byte that is no letter.
    ///
    /// ```
    /// use mealplan::Reason;
    /// # let bytes = std::fs::read(concat!(env!("CARGO_MANIFEST_DIR"), "/../../samples/plan.bin")).unwrap();
    /// let mut walker = mealplan::Plan::new(&bytes)?.walker();
    /// assert_eq!(walker.why(b'f')?, Reason::Above);
    /// walker.first_root();
    /// assert_eq!((walker.why(b'f')?, walker.why(b'u')?), (Reason::Moves, Reason::Root));
    /// assert_eq!(walker.parent(), None);
    /// assert_eq!(walker.why(b'u')?.to_string(), "this is a root: nothing is above it");
    /// assert_eq!(walker.why(b'x').unwrap_err().number, 9);
    /// assert_eq!(walker.plan().walker_of(0)?.why(b'a')?, Reason::NoTrees);
    /// # Ok::<(), mealplan::Refused>(())
    /// ```
    pub fn why(&mut self, letter: u8) -> Result<Reason, Refused> {
        reason(self.plan.bytes(), &mut self.work, &self.cursor, letter)
    }

    /// The place, to be kept, with the rule that is walked.
    pub fn place(&self) -> Place {
        Place::from_bytes(&self.cursor)
    }

    /// To a place that was kept, of whichever rule; gives the label there, none above the forest. From then on that rule's forest is walked. Refused
    /// with 10 where it is no place of this plan, and then the walker stays.
    ///
    /// ```
    /// use mealplan::Place;
    /// # let bytes = std::fs::read(concat!(env!("CARGO_MANIFEST_DIR"), "/../../samples/plan.bin")).unwrap();
    /// let mut walker = mealplan::Plan::new(&bytes)?.walker();
    /// walker.walk(b"afn")?;
    /// let kept = walker.place();
    /// walker.last_root();
    /// assert_eq!(walker.go_to(&kept)?, Some(98));
    /// assert_eq!(walker.go_to(&Place::from_bytes(&[9; 80])).unwrap_err().number, 10);
    /// assert_eq!(walker.place(), kept);
    /// walker.go_to(&Place::above_rule(3))?;
    /// assert_eq!((walker.rule(), walker.walk(b"ann")?), (3, vec![Some(97), Some(98), None]));
    /// # Ok::<(), mealplan::Refused>(())
    /// ```
    pub fn go_to(&mut self, place: &Place) -> Result<Option<Label>, Refused> {
        let mut cursor = self.cursor_of(place)?;
        let mut answer = [0; answers_bytes(1)];
        walk(self.plan.bytes(), &mut self.work, &mut cursor, b"s", &mut answer)?;
        self.cursor = cursor;
        self.label = labels(&answer).next().flatten();
        Ok(self.label)
    }

    /// Back above the forest of the same rule.
    pub fn leave(&mut self) {
        let word = cursor::word(&self.cursor);
        self.cursor.fill(0);
        stand_above(&mut self.cursor, word);
        self.label = None;
    }

    /// Compares the subtree here with the one at a place that was kept, as lists of their nodes in reading order with label and level, pair by pair
    /// up to a budget. Each may be a place of another rule. Refused with 10 where either is above the forest, or the place is none of this plan. Nothing
    /// moves.
    ///
    /// ```
    /// use mealplan::Compared;
    /// # let bytes = std::fs::read(concat!(env!("CARGO_MANIFEST_DIR"), "/../../samples/plan.bin")).unwrap();
    /// let mut walker = mealplan::Plan::new(&bytes)?.walker();
    /// walker.first_root();
    /// let whole = walker.place();
    /// assert_eq!(walker.compare(&whole, 100)?, Compared::Same(9));
    /// walker.walk(b"fnn")?;
    /// assert_eq!(walker.compare(&whole, 100)?, Compared::Differ(4));
    /// assert_eq!(walker.compare(&whole, 3)?, Compared::Spent(3));
    ///
    /// // The first tree again, as that of its own rule.
    /// let mut tree = walker.plan().walker_of(6)?;
    /// tree.first_root();
    /// assert_eq!(tree.compare(&whole, 100)?, Compared::Same(9));
    /// # Ok::<(), mealplan::Refused>(())
    /// ```
    pub fn compare(&mut self, other: &Place, budget: u32) -> Result<Compared, Refused> {
        let other = self.cursor_of(other)?;
        compare(self.plan.bytes(), &mut self.work, &self.cursor, &other, budget)
    }

    /// A cursor of this plan that holds a place. Refused with 10 for more cells than any place of this plan has, and for bytes that are no whole cells.
    fn cursor_of(&self, place: &Place) -> Result<Vec<u8>, Refused> {
        let bytes = place.as_bytes();
        let mut cursor = vec![0; self.cursor.len()];
        let whole = bytes.len() == 8 * (place.len() + 1);
        let front = cursor.get_mut(..bytes.len()).filter(|_| whole).ok_or(Refusal::Place.at(0))?;
        front.copy_from_slice(bytes);
        Ok(cursor)
    }
}

impl fmt::Debug for Walker<'_> {
    fn fmt(&self, f: &mut fmt::Formatter) -> fmt::Result {
        f.debug_struct("Walker").field("place", &format_args!("{}", self.place())).field("label", &self.label).finish()
    }
}
