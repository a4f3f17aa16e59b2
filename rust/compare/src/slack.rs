//! The comparison of one case of "Slack".

use crate::lent::{Surroundings, SURROUNDINGS};
use crate::lent_sizes::{LentSizes, Shown};
use crate::of_library;
use crate::outcome::number;
use crate::tally::Tally;
use reference::cases::sizes::SizedRecord;
use reference::Refusal;

/// What an outline is answered with: the slack across and up.
pub type Answer = Result<(i64, i64), Refusal>;

/// A Rust version of the call.
type Version = fn(&[u8], &[u16], &[u16], u32, u32) -> Answer;

/// An outline: its width and its height.
pub type Outline = [u32; 2];

impl Tally {
    /// Hands a record with sizes and an outline to the library, to the
    /// definitions and to the fast Rust version, and gives the answer that all
    /// three agree on.
    ///
    /// # Panics
    ///
    /// If they differ, or if one of them writes where its input stands.
    pub fn slack(&mut self, sized: &SizedRecord, outline: Outline) -> Answer {
        self.slack_as(reference::slack, sized, outline)
    }

    /// As [`Self::slack`], but leaves out the definitions, which take long for
    /// large plans.
    ///
    /// # Panics
    ///
    /// As there.
    pub fn slack_quickly(&mut self, sized: &SizedRecord, outline: Outline) -> Answer {
        self.slack_as(reference::fast::slack, sized, outline)
    }

    fn slack_as(&mut self, definitions: Version, sized: &SizedRecord, outline: Outline) -> Answer {
        let SizedRecord {
            record,
            widths,
            heights,
        } = sized;
        let [width, height] = outline;
        let answer = definitions(record, widths, heights, width, height);
        for around in SURROUNDINGS {
            compare(sized, outline, answer, around);
        }
        self.count(&answer);
        answer
    }

    /// Compares a record with sizes that needs just so much across and up: in
    /// that outline, in one that is too small by 1 one way and too large by 1
    /// the other way, in the smallest one and in the largest one.
    ///
    /// # Panics
    ///
    /// If a slack is another, or as [`Self::slack`].
    pub fn expect_needed(&mut self, sized: &SizedRecord, needed: Outline) {
        let [across, up] = needed;
        for outline in [
            needed,
            [across - 1, up + 1],
            [across + 1, up - 1],
            [0, u32::MAX],
            [u32::MAX, 0],
        ] {
            let less = |outline: u32, needed: u32| i64::from(outline) - i64::from(needed);
            let expected = Ok((less(outline[0], across), less(outline[1], up)));
            let answer = self.slack(sized, outline);
            assert_eq!(answer, expected, "{} in {outline:?}", Shown(sized));
        }
    }

    /// Compares a record with sizes that must be refused with `refusal`,
    /// whatever the outline.
    ///
    /// # Panics
    ///
    /// If the answer is another, or as [`Self::slack`].
    pub fn expect_refused_slack(&mut self, sized: &SizedRecord, refusal: Refusal) {
        for outline in [[0; 2], [u32::MAX; 2]] {
            let answer = self.slack(sized, outline);
            let expected = Err(refusal);
            assert_eq!(answer, expected, "{} in {outline:?}", Shown(sized));
        }
    }
}

/// Holds the library and the fast Rust version to the answer.
fn compare(sized: &SizedRecord, outline: Outline, answer: Answer, around: Surroundings) {
    let lent = LentSizes::new(sized, around);
    let (record, widths, heights) = lent.slices();
    let [width, height] = outline;
    let fast = reference::fast::slack(record, widths, heights, width, height);
    let library = nenturxo::slack(record, widths, heights, width, height);
    let expected = answer.map(of_library::slack).map_err(number);
    assert!(
        fast == answer && library.map_err(|refusal| refusal.number()) == expected,
        "the versions differ\n\
         case     {}, outline {outline:?}\n\
         library  {library:?}\n\
         expected {answer:?}\n\
         fast     {fast:?}",
        Shown(sized)
    );
    lent.expect_still(sized);
}
