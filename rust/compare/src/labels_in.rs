//! The comparison of one case of "Labels in".

use crate::lent::shown;
use crate::one_slice::Versions;
use crate::outcome::{fitting, Answer};
use crate::records::record_length;
use crate::tally::Tally;
use reference::Refusal;

const VERSIONS: Versions = Versions {
    expected: reference::labels_in,
    fast: reference::fast::labels_in,
    library: nenturxo::labels_in,
};

impl Tally {
    /// Hands `labels` and a record slice of `capacity` bytes to the library,
    /// to the definitions and to the fast Rust version, and gives the answer
    /// that all three agree on.
    ///
    /// # Panics
    ///
    /// If they differ in their answer or in any byte in or around the slices.
    pub fn labels_in(&mut self, labels: &[u8], capacity: usize) -> Answer {
        self.labels_in_as(VERSIONS, labels, capacity)
    }

    /// As [`Self::labels_in`], but leaves out the definitions, which take long
    /// for long lists.
    ///
    /// # Panics
    ///
    /// As there.
    pub fn labels_in_quickly(&mut self, labels: &[u8], capacity: usize) -> Answer {
        self.labels_in_as(VERSIONS.quick(), labels, capacity)
    }

    fn labels_in_as(&mut self, versions: Versions, labels: &[u8], capacity: usize) -> Answer {
        let case = format_args!("labels {labels:?}");
        self.in_surroundings(|around| versions.agreed(labels, capacity, around, case))
    }

    /// Compares a list that is accepted where the slice is long enough, and
    /// else refused with 15.
    ///
    /// # Panics
    ///
    /// If the answer is another, or as [`Self::labels_in`].
    pub fn expect_length(&mut self, labels: &[u8], capacity: usize) {
        let length = record_length(labels.len());
        let answer = self.labels_in(labels, capacity);
        let expected = fitting(length, [length], [capacity]);
        assert_eq!(answer, expected, "{labels:?} into {capacity} bytes");
    }

    /// Compares a list whose answer is known: `record`, in a slice of just
    /// its length, in a longer one, and refused in a shorter one.
    ///
    /// # Panics
    ///
    /// If the answer is another, or as [`Self::labels_in`].
    pub fn expect_record(&mut self, labels: &[u8], record: &[u8]) {
        self.expect_length(labels, record.len());
        self.expect_length(labels, record.len() + 3);
        // That the library wrote the same bytes is compared already.
        let mut written = vec![0; record.len()];
        let answer = reference::labels_in(labels, &mut written);
        assert_eq!(answer, Ok(record.len()), "length for {labels:?}");
        assert_eq!(shown(&written), shown(record), "record of {labels:?}");

        self.expect_length(labels, record.len() - 1);
    }

    /// Compares a list that must be refused with `refusal`.
    ///
    /// # Panics
    ///
    /// If the answer is another, or as [`Self::labels_in`].
    pub fn expect_refusal(&mut self, labels: &[u8], capacity: usize, refusal: Refusal) {
        let answer = self.labels_in(labels, capacity);
        assert_eq!(
            answer,
            Err(refusal),
            "refusal of {labels:?} with capacity {capacity}"
        );
    }
}
