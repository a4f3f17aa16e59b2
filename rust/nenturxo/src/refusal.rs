//! The sheet's numbered refusals.

use crate::sys::LongCode;
use std::fmt;

/// A refusal: the call found a cause not to give its result, and wrote
/// nothing.
///
/// The constants are the rows of the sheet's table.
///
/// ```
/// use nenturxo::Refusal;
///
/// let refusal = nenturxo::labels_in(&[2, 4, 1, 3], &mut [0; 3]).unwrap_err();
/// assert_eq!(refusal, Refusal::BARRED_PATTERN);
/// assert_eq!(refusal.number(), 8);
/// assert_eq!(refusal.to_string(), "refusal 8: barred pattern");
/// ```
#[derive(Clone, Copy, Debug, PartialEq, Eq, PartialOrd, Ord, Hash)]
pub struct Refusal(u32);

impl Refusal {
    /// 1: room or label list of 0 or over 255 entries
    pub const LIST_LENGTH: Self = Self(1);
    /// 2: room with right ≤ left or top ≤ bottom
    pub const EMPTY_ROOM: Self = Self(2);
    /// 3: two rooms share a unit square
    pub const SHARED_SQUARE: Self = Self(3);
    /// 4: a unit square of the outline is in no room
    pub const OPEN_SQUARE: Self = Self(4);
    /// 5: four rooms meet at a point
    pub const FOUR_ROOMS_MEET: Self = Self(5);
    /// 6: label outside 1 to n
    pub const LABEL_OUTSIDE: Self = Self(6);
    /// 7: label occurs twice
    pub const LABEL_TWICE: Self = Self(7);
    /// 8: barred pattern
    pub const BARRED_PATTERN: Self = Self(8);
    /// 9: record empty or kind 0
    pub const NO_KIND: Self = Self(9);
    /// 10: body shorter than its kind fixes
    pub const BODY_SHORT: Self = Self(10);
    /// 11: bytes after the body
    pub const BYTES_AFTER: Self = Self(11);
    /// 12: a triple needs a run that is missing
    pub const RUN_MISSING: Self = Self(12);
    /// 13: more than one run at the end
    pub const RUNS_LEFT: Self = Self(13);
    /// 14: spare bit is 1
    pub const SPARE_BIT: Self = Self(14);
    /// 15: an output slice too short
    pub const SLICE_SHORT: Self = Self(15);
    /// 16: asked position outside 1 to n
    pub const POSITION_OUTSIDE: Self = Self(16);
    /// 17: the two asked positions equal or a position in both groups
    pub const POSITIONS_EQUAL: Self = Self(17);
    /// 18: text breaks the form or is longer than 4,096 bytes
    pub const TEXT_FORM: Self = Self(18);
    /// 19: the plan is not slicing
    pub const NOT_SLICING: Self = Self(19);
    /// 20: one nonzero name on two rooms
    pub const NAME_TWICE: Self = Self(20);
    /// 21: used part of a book is or would become longer than 65,535 bytes, or a
    /// trace is
    pub const BOOK_LENGTH: Self = Self(21);
    /// 22: used length beyond the lent slice or a place beyond the used length
    pub const PLACE_OUTSIDE: Self = Self(22);
    /// 23: summary is not the book's
    pub const SUMMARY_DIFFERS: Self = Self(23);
    /// 24: a list whose length is not n
    pub const LENGTH_DIFFERS: Self = Self(24);
    /// 25: a size of 0
    pub const ZERO_SIZE: Self = Self(25);
    /// 26: a placing that breaks a relation
    pub const RELATION_BROKEN: Self = Self(26);
    /// 27: a group is empty
    pub const EMPTY_GROUP: Self = Self(27);
    /// 28: a move of an unknown kind, without its body or with a triple above 7
    pub const BAD_MOVE: Self = Self(28);
    /// 29: the only room is taken away
    pub const ONLY_ROOM: Self = Self(29);
    /// 30: a number of rooms that is 0 or above 17, whose plans are not counted
    pub const NOT_COUNTED: Self = Self(30);

    /// The refusal that a code below 0 stands for, be it long or not. A
    /// refusal's number is small.
    pub(crate) fn from_code(code: impl Into<LongCode>) -> Self {
        Self(code.into().unsigned_abs() as u32)
    }

    /// The refusal with this number.
    pub(crate) const fn from_number(number: u32) -> Self {
        Self(number)
    }

    /// The refusal's number in the sheet's table.
    #[must_use]
    pub const fn number(self) -> u32 {
        self.0
    }

    /// The refusal's cause, in the words of the sheet's table.
    #[must_use]
    pub const fn cause(self) -> &'static str {
        match self {
            Self::LIST_LENGTH => "room or label list of 0 or over 255 entries",
            Self::EMPTY_ROOM => "room with right ≤ left or top ≤ bottom",
            Self::SHARED_SQUARE => "two rooms share a unit square",
            Self::OPEN_SQUARE => "a unit square of the outline is in no room",
            Self::FOUR_ROOMS_MEET => "four rooms meet at a point",
            Self::LABEL_OUTSIDE => "label outside 1 to n",
            Self::LABEL_TWICE => "label occurs twice",
            Self::BARRED_PATTERN => "barred pattern",
            Self::NO_KIND => "record empty or kind 0",
            Self::BODY_SHORT => "body shorter than its kind fixes",
            Self::BYTES_AFTER => "bytes after the body",
            Self::RUN_MISSING => "a triple needs a run that is missing",
            Self::RUNS_LEFT => "more than one run at the end",
            Self::SPARE_BIT => "spare bit is 1",
            Self::SLICE_SHORT => "an output slice too short",
            Self::POSITION_OUTSIDE => "asked position outside 1 to n",
            Self::POSITIONS_EQUAL => "the two asked positions equal or a position in both groups",
            Self::TEXT_FORM => "text breaks the form or is longer than 4,096 bytes",
            Self::NOT_SLICING => "the plan is not slicing",
            Self::NAME_TWICE => "one nonzero name on two rooms",
            Self::BOOK_LENGTH => {
                "used part of a book is or would become longer than 65,535 bytes, or a trace is"
            }
            Self::PLACE_OUTSIDE => {
                "used length beyond the lent slice or a place beyond the used length"
            }
            Self::SUMMARY_DIFFERS => "summary is not the book's",
            Self::LENGTH_DIFFERS => "a list whose length is not n",
            Self::ZERO_SIZE => "a size of 0",
            Self::RELATION_BROKEN => "a placing that breaks a relation",
            Self::EMPTY_GROUP => "a group is empty",
            Self::BAD_MOVE => {
                "a move of an unknown kind, without its body or with a triple above 7"
            }
            Self::ONLY_ROOM => "the only room is taken away",
            Self::NOT_COUNTED => {
                "a number of rooms that is 0 or above 17, whose plans are not counted"
            }
            // The library has no other numbers.
            _ => "not in the table",
        }
    }
}

impl fmt::Display for Refusal {
    fn fmt(&self, f: &mut fmt::Formatter<'_>) -> fmt::Result {
        write!(f, "refusal {}: {}", self.number(), self.cause())
    }
}

impl std::error::Error for Refusal {}
