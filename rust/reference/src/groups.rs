//! Whole groups at once, of M-109, and its call "Groups".

use crate::{plan_of, Plan, Refusal, Side};

/// A group of positions: "an array of 32 bytes".
pub type Group = [u8; 32];

/// The positions in a group, from 1 to 256: "Position k is bit (k − 1) mod 8,
/// counted from the low end, of byte (k − 1) divided by 8, rounded down."
#[must_use]
pub fn positions_in(group: &Group) -> Vec<usize> {
    let is_there = |&k: &usize| group[(k - 1) / 8] >> ((k - 1) % 8) & 1 == 1;
    (1..=256).filter(is_there).collect()
}

impl Plan {
    /// The relation "if every room of the first has that relation to every room
    /// of the second", or `None` if the groups are mixed.
    ///
    /// # Errors
    ///
    /// The first cause found in the order 16, 27, 17.
    pub fn groups(&self, first: &Group, second: &Group) -> Result<Option<Side>, Refusal> {
        let [first, second] = [first, second].map(positions_in);
        let n = self.labels.len();
        if first.iter().chain(&second).any(|&position| position > n) {
            return Err(Refusal::PositionOutside);
        }
        if first.is_empty() || second.is_empty() {
            return Err(Refusal::EmptyGroup);
        }
        if first.iter().any(|position| second.contains(position)) {
            return Err(Refusal::PositionsEqual);
        }
        let are_on = |&side: &Side| {
            let is_on = |one: usize, other: usize| self.side(one - 1, other - 1) == side;
            let mut ones = first.iter();
            ones.all(|&one| second.iter().all(|&other| is_on(one, other)))
        };
        Ok(Side::ALL.into_iter().find(are_on))
    }
}

/// Groups: "left, right, above or below if every room of the first has that
/// relation to every room of the second, direct or not", and `None` for "mixed
/// otherwise".
///
/// # Errors
///
/// The first cause found in the order 9, 10, 11, 14, 12, 13, 16, 27, 17.
pub fn groups(record: &[u8], first: &Group, second: &Group) -> Result<Option<Side>, Refusal> {
    plan_of(record)?.groups(first, second)
}

#[cfg(test)]
mod tests;
