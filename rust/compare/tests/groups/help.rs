//! What several of the tests are made of.

use compare::{grouped, report, Groups};
use reference::cases::groups::group_of;
use reference::{Group, Side};

/// The group of all positions from one to another.
pub fn from_to(first: usize, last: usize) -> Group {
    group_of(&(first..=last).collect::<Vec<_>>())
}

/// Two groups of these positions.
pub fn groups_of(first: &[usize], second: &[usize]) -> Groups {
    [group_of(first), group_of(second)]
}

/// How often each answer came up: the four sides, and mixed.
#[derive(Debug, Default)]
pub struct Answers([usize; 5]);

impl Answers {
    /// Counts an answer.
    pub fn count(&mut self, answer: Option<Side>) {
        let side = Side::ALL.iter().position(|&side| answer == Some(side));
        self.0[side.unwrap_or(4)] += 1;
    }

    /// Prints the counts.
    ///
    /// # Panics
    ///
    /// Unless each answer came up more than so often: else too little of it would
    /// have been tried.
    pub fn expect_often(&self, count: usize) {
        let [left, right, above, below, mixed] = self.0.map(grouped);
        report(format_args!(
            "of the groups {left} are left, {right} right, {above} above, {below} below \
             and {mixed} mixed"
        ));
        assert!(self.0.iter().all(|&answers| answers > count), "{self:?}");
    }
}
