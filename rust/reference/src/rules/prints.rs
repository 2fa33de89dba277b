//! A print of the forest that somebody sees of a plan, by rules alone, for forests that nobody unfolds: a number that equal forests have in common,
//! and different ones hardly ever.
//!
//! A forest is a text of brackets and labels, and its print a polynomial modulo 2^61 − 1 with the text's symbols as coefficients. Of a holed rule
//! there are two texts, before its hole and after it; where the hole is below a node that isn't seen, it is gone, and all is before it.
use crate::Refused;
use crate::plan::{self, Rule};

const PRIME: u64 = (1 << 61) - 1;

/// A text: its print, and the base to the power of its length.
#[derive(Clone, Copy, PartialEq, Eq)]
struct Text {
    print: u64,
    power: u64,
}

/// What is seen of a rule; one that is closed, or whose hole is gone, has no second text.
#[derive(Clone, Copy)]
struct Seen {
    before: Text,
    after: Option<Text>,
}

fn times(one: u64, other: u64) -> u64 {
    (u128::from(one) * u128::from(other) % u128::from(PRIME)) as u64
}

impl Text {
    const EMPTY: Text = Text { print: 0, power: 1 };

    /// One symbol.
    fn of(symbol: u64, base: u64) -> Text {
        Text { print: symbol, power: base }
    }

    fn then(self, other: Text) -> Text {
        let print = (times(self.print, other.power) + other.print) % PRIME;
        Text { print, power: times(self.power, other.power) }
    }
}

impl Seen {
    const NOTHING: Seen = Seen { before: Text::EMPTY, after: None };

    fn closed(before: Text) -> Seen {
        Seen { before, after: None }
    }

    /// With its hole filled, if it has one that is seen.
    fn around(self, inside: Seen) -> Seen {
        let Some(after) = self.after else { return self };
        let before = self.before.then(inside.before);
        match inside.after {
            Some(inner) => Seen { before, after: Some(inner.then(after)) },
            None => Seen::closed(before.then(after)),
        }
    }
}

/// The print, with a base of its own, of the forest of an accepted plan without the nodes that aren't seen and all below them.
pub fn visible(plan: &[u8], sees: impl Fn(u32) -> bool, base: u64) -> Result<u64, Refused> {
    let plan = plan::read(plan)?;
    let base = base % PRIME;
    let (close, open) = (Text::of(1, base), |label: u32| Text::of(2 + u64::from(label), base));
    let mut seen = vec![Seen::NOTHING; plan.rules.count()];
    for number in plan.order() {
        let of = |rule: u16| seen[usize::from(rule)];
        seen[usize::from(number)] = match plan.rules.get(number) {
            Rule::Empty => Seen::NOTHING,
            Rule::Pair(b, c) => Seen::closed(of(b).before.then(of(c).before)),
            Rule::Node(label, _) | Rule::Part(label, ..) if !sees(label) => Seen::NOTHING,
            Rule::Node(label, c) => Seen::closed(open(label).then(of(c).before).then(close)),
            Rule::Part(label, l, r) => {
                Seen { before: open(label).then(of(l).before), after: Some(of(r).before.then(close)) }
            }
            Rule::Fill(b, c) | Rule::Join(b, c) => of(b).around(of(c)),
        };
    }
    Ok(seen[usize::from(plan.start)].before.print)
}
