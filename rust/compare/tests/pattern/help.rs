//! What several of the tests count.

use reference::{Condition, Pattern, Refusal};

/// What a label list is answered with.
pub type Answer = Result<Option<Pattern>, Refusal>;

pub const CONDITIONS: [Condition; 2] = [Condition::First, Condition::Second];

/// How many lists had no pattern, how many a first one that meets the first
/// condition, and how many one that meets the second.
#[derive(Debug, Default, PartialEq, Eq)]
pub struct Named {
    pub none: usize,
    pub first: usize,
    pub second: usize,
}

impl Named {
    /// Counts a list that is not refused.
    pub fn count(&mut self, answer: Answer) {
        match answer.map(|pattern| pattern.map(|pattern| pattern.condition)) {
            Ok(None) => self.none += 1,
            Ok(Some(Condition::First)) => self.first += 1,
            Ok(Some(Condition::Second)) => self.second += 1,
            Err(_) => {}
        }
    }

    /// Stops unless each of the three came up more than so many times.
    pub fn expect_often(&self, count: usize) {
        let least = self.none.min(self.first).min(self.second);
        assert!(least > count, "{self:?}");
    }
}
