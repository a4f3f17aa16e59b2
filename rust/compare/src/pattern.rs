//! The comparison of one case of "Pattern".

use crate::lent::{Input, Surroundings, SURROUNDINGS};
use crate::of_library;
use crate::outcome::number;
use crate::tally::Tally;
use reference::{Condition, Pattern, Refusal};

/// What a label list is answered with.
pub type Answer = Result<Option<Pattern>, Refusal>;

impl Tally {
    /// Hands `labels` to the library, to the definitions and to the fast Rust
    /// version, and gives the answer that all three agree on.
    ///
    /// # Panics
    ///
    /// If they differ, or one of them writes where the labels stand, or if the
    /// positions do not meet the condition, or if "Labels in" of the library
    /// does not refuse the list with 8 where there is a pattern, and with the
    /// same refusal where there is another one.
    pub fn pattern(&mut self, labels: &[u8]) -> Answer {
        self.pattern_as(reference::pattern(labels), labels)
    }

    /// As [`Self::pattern`], but leaves out the definitions, which take long
    /// for long lists.
    ///
    /// # Panics
    ///
    /// As there.
    pub fn pattern_quickly(&mut self, labels: &[u8]) -> Answer {
        self.pattern_as(reference::fast::pattern(labels), labels)
    }

    /// As [`Self::pattern_quickly`], for a list whose answer is known from the
    /// way in which it was made.
    ///
    /// # Panics
    ///
    /// If the answer is another, or as there.
    pub fn expect_pattern(&mut self, labels: &[u8], known: Answer) {
        let _ = self.pattern_as(known, labels);
    }

    fn pattern_as(&mut self, answer: Answer, labels: &[u8]) -> Answer {
        for around in SURROUNDINGS {
            compare(labels, answer, around);
        }
        if let Ok(Some(pattern)) = answer {
            expect_met(labels, pattern);
        }
        expect_as_of_labels_in(labels, answer);
        self.count(&answer);
        answer
    }
}

/// Holds the library and the fast Rust version to an answer.
fn compare(labels: &[u8], answer: Answer, around: Surroundings) {
    let lent = Input::new(labels, around);
    let fast = reference::fast::pattern(lent.slice());
    let library = nenturxo::pattern(lent.slice());
    let expected = answer
        .map(|pattern| pattern.map(of_library::pattern))
        .map_err(number);
    assert!(
        fast == answer && library.map_err(|refusal| refusal.number()) == expected,
        "the versions differ\n\
         labels   {labels:?}\n\
         library  {library:?}\n\
         expected {answer:?}\n\
         fast     {fast:?}"
    );
    lent.expect_still(labels);
}

/// Stops unless four positions in order meet the condition.
fn expect_met(labels: &[u8], pattern: Pattern) {
    let Pattern { i, j, k, l, .. } = pattern;
    assert!(i < j && j < k && k < l, "{pattern:?} of {labels:?}");
    let four = [i, j, k, l].map(|position| labels[usize::from(position) - 1]);
    let met = Condition::met_by(four);
    assert_eq!(met, Some(pattern.condition), "{pattern:?} of {labels:?}");
}

/// Stops unless "Labels in" refuses with 8 where there is a pattern, with the
/// same refusal where there is another one, and else accepts.
fn expect_as_of_labels_in(labels: &[u8], answer: Answer) {
    let mut record = [0; nenturxo::RECORD_CAPACITY];
    let refusal = nenturxo::labels_in(labels, &mut record).err();
    let expected = match answer {
        Ok(None) => None,
        Ok(Some(_)) => Some(Refusal::BarredPattern),
        Err(refusal) => Some(refusal),
    };
    let numbers = (refusal.map(|r| r.number()), expected.map(number));
    assert_eq!(numbers.0, numbers.1, "Labels in and {answer:?}: {labels:?}");
}
