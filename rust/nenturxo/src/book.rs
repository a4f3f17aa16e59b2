//! Books of records.

use crate::sys::Code;
use crate::Refusal;
use std::fmt;

/// What stands beside a book: the totals of the records in it. That of an empty
/// book is the default.
#[derive(Clone, Copy, Debug, Default, PartialEq, Eq)]
pub struct Summary {
    /// How many records there are.
    pub plans: u32,
    /// How many rooms they have together.
    pub rooms: u32,
    /// How many triples have the third bit 0: at these positions the label is
    /// larger than at the one before.
    pub rises: u32,
    /// How many triples have the third bit 1.
    pub falls: u32,
}

/// Why a call on a book is refused.
///
/// ```
/// use nenturxo::{book_next, Refusal};
///
/// let refused = book_next(&[0x01, 0x02, 0x41], 3, 1).unwrap_err();
/// assert_eq!(refused.error, Refusal::SPARE_BIT);
/// assert_eq!(refused.ordinal, Some(1));
/// assert_eq!(refused.to_string(), "record 1 of the book: refusal 14: spare bit is 1");
/// ```
#[derive(Clone, Copy, Debug, PartialEq, Eq)]
pub struct BookError {
    /// The refusal.
    pub error: Refusal,
    /// Which record in the book is bad, counted from 1, if one is.
    pub ordinal: Option<usize>,
}

impl BookError {
    /// The refusal that a code below 0 stands for: its number, and 256 times the
    /// ordinal more if a record in the book is bad.
    pub(crate) fn from_code(code: Code) -> Self {
        let number = code.unsigned_abs();
        let ordinal = (number / 256) as usize;
        Self {
            error: Refusal::from_number(number % 256),
            ordinal: (ordinal > 0).then_some(ordinal),
        }
    }
}

impl fmt::Display for BookError {
    fn fmt(&self, f: &mut fmt::Formatter<'_>) -> fmt::Result {
        if let Some(ordinal) = self.ordinal {
            write!(f, "record {ordinal} of the book: ")?;
        }
        self.error.fmt(f)
    }
}

impl std::error::Error for BookError {}

#[cfg(test)]
mod tests {
    use super::BookError;
    use crate::Refusal;

    #[test]
    fn both_parts_of_a_code_are_read() {
        for (code, error, ordinal) in [
            (-21, Refusal::BOOK_LENGTH, None),
            (-23, Refusal::SUMMARY_DIFFERS, None),
            (-(9 + 256), Refusal::NO_KIND, Some(1)),
            (-(13 + 256 * 3), Refusal::RUNS_LEFT, Some(3)),
            (-(10 + 256 * 65_535), Refusal::BODY_SHORT, Some(65_535)),
        ] {
            let expected = BookError { error, ordinal };
            assert_eq!(BookError::from_code(code), expected, "{code}");
        }
    }

    #[test]
    fn a_bad_record_is_named_by_its_ordinal() {
        let bad = BookError::from_code(-(14 + 256 * 3));
        let words = "record 3 of the book: refusal 14: spare bit is 1";
        assert_eq!(bad.to_string(), words);
        let other = BookError::from_code(-23);
        assert_eq!(other.to_string(), "refusal 23: summary is not the book's");
    }
}
