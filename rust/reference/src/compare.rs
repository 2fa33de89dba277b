//! Compare (document 02, Note 4): the nodes of two subtrees, listed in reading order with label and level, pair by pair.

/// What compare finds of two subtrees, with its count.
#[derive(Clone, Copy, PartialEq, Eq, Debug)]
pub enum Compared {
    /// No pair differs: the common length.
    Same(u32),
    /// The place, from 1, of the first pair that differs.
    Differ(u32),
    /// That number is above the budget: the budget.
    Spent(u32),
}

/// A node of a subtree as it is listed: its label, and its level below the top, which has 0.
#[derive(Clone, Copy, PartialEq, Eq, Debug)]
pub struct Listed {
    pub label: u32,
    pub level: u64,
}

/// Compares two lists pair by pair. A node against an ended list is a pair that differs. No more pairs are looked at than one above the
/// budget: by then it is spent.
pub fn pair_by_pair(
    mut first: impl Iterator<Item = Listed>,
    mut second: impl Iterator<Item = Listed>,
    budget: u32,
) -> Compared {
    for place in 1..=u64::from(budget) + 1 {
        let (one, other) = (first.next(), second.next());
        let ended = one.is_none() && other.is_none();
        let number = if ended { place - 1 } else { place };
        if ended || one != other {
            return match u32::try_from(number) {
                Ok(number) if number <= budget && ended => Compared::Same(number),
                Ok(number) if number <= budget => Compared::Differ(number),
                _ => Compared::Spent(budget),
            };
        }
    }
    Compared::Spent(budget)
}
