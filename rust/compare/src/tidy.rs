//! The comparison of one case of "Tidy".

use crate::one_slice::Versions;
use crate::outcome::{fitting, Answer};
use crate::tally::Tally;
use reference::Refusal;

const VERSIONS: Versions = Versions {
    expected: reference::tidy,
    fast: reference::fast::tidy,
    library: nenturxo::tidy,
};

impl Tally {
    /// Hands `text` and a slice of `capacity` bytes to the library, to the
    /// definitions and to the fast Rust version, and gives the answer that all
    /// three agree on.
    ///
    /// # Panics
    ///
    /// If they differ in their answer or in any byte in or around the slices.
    pub fn tidy(&mut self, text: &[u8], capacity: usize) -> Answer {
        self.tidy_as(VERSIONS, text, capacity)
    }

    /// As [`Self::tidy`], but leaves out the definitions, which take long for
    /// long lists.
    ///
    /// # Panics
    ///
    /// As there.
    pub fn tidy_quickly(&mut self, text: &[u8], capacity: usize) -> Answer {
        self.tidy_as(VERSIONS.quick(), text, capacity)
    }

    fn tidy_as(&mut self, versions: Versions, text: &[u8], capacity: usize) -> Answer {
        let case = format_args!("text {}", shown(text));
        self.in_surroundings(|around| versions.agreed(text, capacity, around, case))
    }

    /// Compares a text that is accepted where the slice has `length` bytes at
    /// least, and else refused with 15.
    ///
    /// # Panics
    ///
    /// If the answer is another, or as [`Self::tidy`].
    pub fn expect_tidy_length(&mut self, text: &[u8], length: usize, capacity: usize) {
        let answer = self.tidy(text, capacity);
        let expected = fitting(length, [length], [capacity]);
        assert_eq!(answer, expected, "{} into {capacity} bytes", shown(text));
    }

    /// Compares a text whose tidy form is known: in a slice of just its
    /// length, in a longer one, and refused in a shorter one.
    ///
    /// # Panics
    ///
    /// If the answer is another, or as [`Self::tidy`].
    pub fn expect_tidy(&mut self, text: &[u8], tidy: &[u8]) {
        // That the definitions wrote the same bytes is compared below.
        assert_eq!(library_tidy(text).as_deref(), Ok(tidy), "{}", shown(text));
        for capacity in [tidy.len(), tidy.len() + 3, tidy.len() - 1] {
            self.expect_tidy_length(text, tidy.len(), capacity);
        }
    }

    /// Compares a text that must be refused with `refusal`, whatever the
    /// slice: with none to write to, with a short one and with a long one.
    ///
    /// # Panics
    ///
    /// If the answer is another, or as [`Self::tidy`].
    pub fn expect_refused_text(&mut self, text: &[u8], refusal: Refusal) {
        for capacity in [0, 3, nenturxo::TIDY_CAPACITY + 1] {
            let answer = self.tidy(text, capacity);
            assert_eq!(answer, Err(refusal), "{} into {capacity}", shown(text));
        }
    }
}

/// The tidy form that the library gives a text.
///
/// # Errors
///
/// As [`nenturxo::tidy`].
pub fn library_tidy(text: &[u8]) -> Result<Vec<u8>, nenturxo::Refusal> {
    let mut tidy = vec![0; nenturxo::TIDY_CAPACITY];
    let length = nenturxo::tidy(text, &mut tidy)?;
    tidy.truncate(length);
    Ok(tidy)
}

/// A text as it can be typed again.
fn shown(text: &[u8]) -> String {
    format!("\"{}\"", text.escape_ascii())
}
