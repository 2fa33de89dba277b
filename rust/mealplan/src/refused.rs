//! Refusals: what a call turns down, in numbers and in words.
use core::error::Error;
use core::fmt;

/// A call turned down: the documents' number, 1 to 16, and the position (the rule for 4 to 6, the lowest rule that reaches itself for 12, the
/// letter's place for 9, the row for 13 to 15, else 0).
///
/// It is shown with both and in words:
///
/// ```
/// let rules = [mealplan::Rule::Pair(1, 1), mealplan::Rule::Node(97, 2)];
/// let refused = mealplan::seal_rules(&rules, mealplan::Format::Narrow, 0).unwrap_err();
/// assert_eq!((refused.number, refused.position), (5, 1));
/// assert_eq!(refused.to_string(), "refused 5 at 1: rule 1 names a rule that isn't below n");
/// ```
#[derive(Clone, Copy, PartialEq, Eq, Hash, Debug)]
pub struct Refused {
    /// Which refusal it is; [`Refused::refusal`] has it by name.
    pub number: u32,
    /// Where the fault is.
    pub position: u64,
}

/// The refusals by name.
#[derive(Clone, Copy, PartialEq, Eq, Hash, Debug)]
#[repr(u32)]
pub enum Refusal {
    /// Fewer than 10 bytes, or a mark that is neither; a record length that is neither 8 nor 10.
    Magic = 1,
    /// The number of rules is 0 or above 16,384; the words aren't four to a rule, or in a wide plan five.
    Count = 2,
    /// The distance isn't that of so many rules, or goes back before the first byte.
    Distance = 3,
    /// A kind above 5, a label that the format doesn't have, an unused word that isn't 0; of a class, a label above 16,777,215.
    Malformed = 4,
    /// A rule names one that isn't below n.
    NotBelow = 5,
    /// A rule names one of the wrong sort.
    WrongSort = 6,
    /// The start isn't below n or isn't closed.
    Start = 7,
    /// Work or a cursor too short, or fewer answers than letters; of a copy, output too short.
    Lent = 8,
    /// A byte outside a z f l n p u s.
    Letter = 9,
    /// The cells are no place of the forest walked, or cell 0 names no closed rule; where places are compared, one above the forest.
    Place = 10,
    /// Output too short; over 2^64 − 1 nodes, or grams.
    Room = 11,
    /// Some rule reaches itself.
    Cycle = 12,
    /// A row's lowest label is above its highest, its highest above 16,777,215, or its class above 3; of a copy, the client's class.
    Row = 13,
    /// Labels that no row covers.
    Gap = 14,
    /// A row covers labels that are already covered.
    Overlap = 15,
    /// A plan of more than 4,096 rules isn't copied.
    TooMany = 16,
}

impl Refusal {
    /// All of them, in the order of their numbers.
    pub const ALL: [Refusal; 16] = [
        Refusal::Magic,
        Refusal::Count,
        Refusal::Distance,
        Refusal::Malformed,
        Refusal::NotBelow,
        Refusal::WrongSort,
        Refusal::Start,
        Refusal::Lent,
        Refusal::Letter,
        Refusal::Place,
        Refusal::Room,
        Refusal::Cycle,
        Refusal::Row,
        Refusal::Gap,
        Refusal::Overlap,
        Refusal::TooMany,
    ];

    /// The documents' number, 1 to 16.
    pub const fn number(self) -> u32 {
        self as u32
    }

    /// The refusal with this number.
    pub fn from_number(number: u32) -> Option<Refusal> {
        Refusal::ALL.into_iter().find(|refusal| refusal.number() == number)
    }

    /// This refusal at a position.
    pub const fn at(self, position: u64) -> Refused {
        Refused { number: self.number(), position }
    }
}

impl Refused {
    /// Which refusal it is. Every call's is one of the sixteen; none is for a number that somebody else made up.
    ///
    /// ```
    /// use mealplan::Refusal;
    /// assert_eq!(mealplan::check(&[]).unwrap_err().refusal(), Some(Refusal::Magic));
    /// ```
    pub fn refusal(self) -> Option<Refusal> {
        Refusal::from_number(self.number)
    }
}

impl fmt::Display for Refused {
    fn fmt(&self, f: &mut fmt::Formatter) -> fmt::Result {
        let Refused { number, position: at } = *self;
        write!(f, "refused {number} at {at}: ")?;
        let Some(refusal) = self.refusal() else { return write!(f, "no such refusal") };
        match refusal {
            Refusal::Magic => write!(
                f,
                "fewer than 10 bytes, or a mark that is neither 6D 70 nor 6D 71; or a record length that is neither 8 nor 10"
            ),
            Refusal::Count => write!(
                f,
                "the number of rules is 0 or above 16,384, or the words aren't four to a rule, in a wide plan five"
            ),
            Refusal::Distance => {
                write!(f, "the distance isn't 8 * n, in a wide plan 10 * n, or goes back before the first byte")
            }
            Refusal::Malformed => write!(
                f,
                "rule {at} has a kind above 5, a label that is too large or an unused word that isn't 0; or a label asked for is above 16,777,215"
            ),
            Refusal::NotBelow => write!(f, "rule {at} names a rule that isn't below n"),
            Refusal::WrongSort => write!(f, "rule {at} names one of the wrong sort"),
            Refusal::Start => write!(f, "the start isn't below n or isn't closed"),
            Refusal::Lent => write!(f, "work, a cursor, answers or a copy's output is too short"),
            Refusal::Letter => write!(f, "byte {at}, counted from 0, is outside a z f l n p u s"),
            Refusal::Place => write!(
                f,
                "no letters lead from above this forest to this place, its rule isn't there or isn't closed, or it is above the forest where a node is asked for"
            ),
            Refusal::Room => write!(f, "the output is too short, or there are over 2^64 - 1 nodes or grams"),
            Refusal::Cycle => write!(f, "rule {at} reaches itself through the rules it names"),
            Refusal::Row => write!(
                f,
                "row {at}, counted from 0, has its lowest label above its highest, its highest above 16,777,215 or a class above 3; or the client's class is above 3"
            ),
            Refusal::Gap => write!(f, "labels before row {at}, counted from 0, are covered by no row"),
            Refusal::Overlap => write!(f, "row {at}, counted from 0, covers labels that are already covered"),
            Refusal::TooMany => write!(f, "the plan has over 4,096 rules"),
        }
    }
}

impl Error for Refused {}
