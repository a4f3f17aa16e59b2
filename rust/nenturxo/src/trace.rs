//! What the replay of a trace comes to.

use crate::sys::LongCode;
use crate::Refusal;
use std::fmt;

/// What an accepted trace comes to.
#[derive(Clone, Copy, Debug, PartialEq, Eq, Hash)]
pub struct Traced {
    /// How many moves it has, and so how many entries were written.
    pub moves: usize,
    /// The rooms after the last move.
    pub rooms: u8,
    /// The runs after the last move.
    pub runs: u8,
}

impl Traced {
    /// What a code from 0 on stands for: the runs in its lowest byte, the rooms
    /// in the next one, and above them the moves.
    pub(crate) const fn from_code(code: LongCode) -> Self {
        let [.., rooms, runs] = code.to_be_bytes();
        let moves = (code >> 16) as usize;
        Self { moves, rooms, runs }
    }
}

/// The first refused move of a trace.
#[derive(Clone, Copy, Debug, PartialEq, Eq, Hash)]
pub struct RefusedMove {
    /// Which move it is, counted from 1.
    pub ordinal: usize,
    /// The rooms before it.
    pub rooms: u8,
    /// The runs before it.
    pub runs: u8,
}

/// Why a trace is refused.
///
/// ```
/// use nenturxo::{trace, Refusal};
///
/// // Two rooms are added, which leaves three runs, and then comes a claim.
/// let refused = trace(&[1, 0b000, 1, 0b001, 3], &mut [0; 3]).unwrap_err();
/// assert_eq!(refused.error, Refusal::RUNS_LEFT);
/// let at = refused.at.unwrap();
/// assert_eq!((at.ordinal, at.rooms, at.runs), (3, 3, 3));
/// let words = "move 3 of the trace, after rooms 3 and runs 3: \
///              refusal 13: more than one run at the end";
/// assert_eq!(refused.to_string(), words);
/// ```
#[derive(Clone, Copy, Debug, PartialEq, Eq, Hash)]
pub struct TraceError {
    /// The refusal.
    pub error: Refusal,
    /// Which move it is for, unless it is for the length of the trace or of the
    /// slice.
    pub at: Option<RefusedMove>,
}

impl TraceError {
    /// The refusal that a code below 0 stands for. Negated it has the number in
    /// its lowest byte and, for a refused move, then the runs and the rooms
    /// before it, and above them the ordinal.
    pub(crate) const fn from_code(code: LongCode) -> Self {
        let parts = code.unsigned_abs();
        let [.., rooms, runs, number] = parts.to_be_bytes();
        let ordinal = (parts >> 24) as usize;
        let at = RefusedMove {
            ordinal,
            rooms,
            runs,
        };
        Self {
            error: Refusal::from_number(number as u32),
            at: if ordinal == 0 { None } else { Some(at) },
        }
    }
}

impl fmt::Display for TraceError {
    fn fmt(&self, f: &mut fmt::Formatter<'_>) -> fmt::Result {
        if let Some(at) = self.at {
            write!(f, "move {} of the trace, ", at.ordinal)?;
            write!(f, "after rooms {} and runs {}: ", at.rooms, at.runs)?;
        }
        self.error.fmt(f)
    }
}

impl std::error::Error for TraceError {}

#[cfg(test)]
mod tests {
    use super::{RefusedMove, TraceError, Traced};
    use crate::Refusal;

    #[test]
    fn every_part_of_a_result_is_read() {
        for (moves, rooms, runs) in [(0, 1, 1), (6, 4, 1), (254, 255, 255), (65_535, 7, 2)] {
            let code = (moves << 16) + (i64::from(rooms) << 8) + i64::from(runs);
            let moves = moves as usize;
            let expected = Traced { moves, rooms, runs };
            assert_eq!(Traced::from_code(code), expected, "{code}");
        }
    }

    #[test]
    fn every_part_of_a_refused_move_is_read() {
        let refusals = [
            (28, Refusal::BAD_MOVE),
            (1, Refusal::LIST_LENGTH),
            (29, Refusal::ONLY_ROOM),
            (12, Refusal::RUN_MISSING),
            (13, Refusal::RUNS_LEFT),
        ];
        for (number, error) in refusals {
            for (ordinal, rooms, runs) in [(1, 1, 1), (3, 3, 2), (65_535, 255, 254)] {
                let before = (i64::from(rooms) << 16) + (i64::from(runs) << 8);
                let code = -(number + before + (ordinal << 24));
                let ordinal = ordinal as usize;
                let at = Some(RefusedMove {
                    ordinal,
                    rooms,
                    runs,
                });
                let expected = TraceError { error, at };
                assert_eq!(TraceError::from_code(code), expected, "{code}");
            }
        }
    }

    #[test]
    fn other_refusals_are_a_number_alone() {
        for (code, error) in [(-21, Refusal::BOOK_LENGTH), (-15, Refusal::SLICE_SHORT)] {
            let refused = TraceError::from_code(code);
            assert_eq!(refused, TraceError { error, at: None });
            assert_eq!(refused.to_string(), error.to_string());
        }
    }
}
