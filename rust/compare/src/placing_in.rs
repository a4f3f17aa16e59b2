//! The comparison of one case of "Placing in".

use crate::lent::{Surroundings, SURROUNDINGS};
use crate::lent_sizes::{LentPlacing, LentSizes, Shown};
use crate::outcome::number;
use crate::tally::Tally;
use reference::cases::sizes::{Placing, SizedRecord};
use reference::Refusal;

/// What a placing is answered with.
pub type Answer = Result<(), Refusal>;

/// A Rust version of the call.
type Version = fn(&[u8], &[u16], &[u16], &[u32], &[u32]) -> Answer;

impl Tally {
    /// Hands a placing of a record's rooms to the library, to the definitions
    /// and to the fast Rust version, and gives the answer that all three agree
    /// on.
    ///
    /// # Panics
    ///
    /// If they differ, or if one of them writes where its input stands.
    pub fn placing_in(&mut self, sized: &SizedRecord, placing: &Placing) -> Answer {
        self.placing_as(reference::placing_in, sized, placing)
    }

    /// As [`Self::placing_in`], but leaves out the definitions, which take long
    /// for large plans.
    ///
    /// # Panics
    ///
    /// As there.
    pub fn placing_in_quickly(&mut self, sized: &SizedRecord, placing: &Placing) -> Answer {
        self.placing_as(reference::fast::placing_in, sized, placing)
    }

    fn placing_as(
        &mut self,
        definitions: Version,
        sized: &SizedRecord,
        placing: &Placing,
    ) -> Answer {
        let SizedRecord {
            record,
            widths,
            heights,
        } = sized;
        let answer = definitions(record, widths, heights, &placing.x, &placing.y);
        for around in SURROUNDINGS {
            compare(sized, placing, answer, around);
        }
        self.count(&answer);
        answer
    }

    /// Compares a placing whose answer is known.
    ///
    /// # Panics
    ///
    /// If the answer is another, or as [`Self::placing_in`].
    pub fn expect_placing(&mut self, sized: &SizedRecord, placing: &Placing, expected: Answer) {
        let answer = self.placing_in(sized, placing);
        assert_eq!(answer, expected, "{}, {placing:?}", Shown(sized));
    }
}

/// Holds the library and the fast Rust version to the answer.
fn compare(sized: &SizedRecord, placing: &Placing, answer: Answer, around: Surroundings) {
    let (lent, corners) = (
        LentSizes::new(sized, around),
        LentPlacing::new(placing, around),
    );
    let ((record, widths, heights), (x, y)) = (lent.slices(), corners.slices());
    let fast = reference::fast::placing_in(record, widths, heights, x, y);
    let library = nenturxo::placing_in(record, widths, heights, x, y);
    let expected = answer.map_err(number);
    assert!(
        fast == answer && library.map_err(|refusal| refusal.number()) == expected,
        "the versions differ\n\
         case     {}, {placing:?}\n\
         library  {library:?}\n\
         expected {answer:?}\n\
         fast     {fast:?}",
        Shown(sized)
    );
    lent.expect_still(sized);
    corners.expect_still(placing);
}
