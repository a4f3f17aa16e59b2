//! The comparison of one case of "Plan count" and "Plan total".

use crate::outcome::number;
use crate::tally::Tally;
use reference::Refusal;
use std::fmt;

/// What a number of rooms is answered with.
pub type Answer = Result<u64, Refusal>;

impl Tally {
    /// Asks the library, the definitions and the fast Rust version how many plans
    /// of `n` rooms have so many rises, and gives the answer that all three agree
    /// on.
    ///
    /// # Panics
    ///
    /// If they differ.
    pub fn plan_count(&mut self, n: u8, rises: u8) -> Answer {
        self.agreed(
            format_args!("{n} rooms, {rises} rises"),
            nenturxo::plan_count(n, rises),
            reference::plan_count(n, rises),
            reference::fast::plan_count(n, rises),
        )
    }

    /// As [`Self::plan_count`], whatever the rises.
    ///
    /// # Panics
    ///
    /// As there.
    pub fn plan_total(&mut self, n: u8) -> Answer {
        self.agreed(
            format_args!("{n} rooms"),
            nenturxo::plan_total(n),
            reference::plan_total(n),
            reference::fast::plan_total(n),
        )
    }

    /// The answer to a case, once all three are the same.
    fn agreed(
        &mut self,
        case: impl fmt::Display,
        library: Result<u64, nenturxo::Refusal>,
        expected: Answer,
        fast: Answer,
    ) -> Answer {
        let as_numbers = library.map_err(|refusal| refusal.number());
        assert!(
            as_numbers == expected.map_err(number) && fast == expected,
            "the versions differ\n\
             case     {case}\n\
             library  {library:?}\n\
             expected {expected:?}\n\
             fast     {fast:?}"
        );
        self.count(&expected);
        expected
    }
}
