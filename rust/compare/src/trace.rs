//! The comparison of a case of "Trace".

use crate::lent::{shown, Input, Output, Surroundings, SURROUNDINGS};
use crate::outcome::number;
use crate::tally::Tally;
use reference::cases::trace::Draft;
use reference::{Refusal, RefusedMove, TraceRefusal, Traced};
use std::fmt;

/// What a trace is answered with.
pub type Answer = Result<Traced, TraceRefusal>;

/// A trace and its answer in a slice that is long enough, with the entries,
/// found once for all cases of it.
#[derive(Clone, Debug)]
pub struct GivenTrace {
    /// The bytes.
    pub bytes: Vec<u8>,
    answer: Answer,
    entries: Vec<u16>,
}

/// A version of the call, in Rust.
type Version = fn(&[u8], &mut [u16]) -> Answer;

impl GivenTrace {
    /// The trace with these bytes, answered by the definitions.
    #[must_use]
    pub fn new(bytes: impl Into<Vec<u8>>) -> Self {
        Self::answered(bytes.into(), reference::trace)
    }

    /// The trace with these bytes, answered by the fast Rust version. For long
    /// traces the definitions take long.
    #[must_use]
    pub fn quick(bytes: impl Into<Vec<u8>>) -> Self {
        Self::answered(bytes.into(), reference::fast::trace)
    }

    /// A trace whose answer is known from the way in which it was made.
    #[must_use]
    pub fn known(draft: &Draft) -> Self {
        Self {
            bytes: draft.bytes.clone(),
            answer: Ok(draft.answer()),
            entries: draft.entries.clone(),
        }
    }

    fn answered(bytes: Vec<u8>, version: Version) -> Self {
        // No trace has more moves than bytes.
        let mut entries = vec![0; bytes.len()];
        let answer = version(&bytes, &mut entries);
        entries.truncate(answer.map_or(0, |answer| answer.moves));
        Self {
            bytes,
            answer,
            entries,
        }
    }

    /// How many moves it has if it is accepted, and else how many bytes.
    #[must_use]
    pub fn moves(&self) -> usize {
        self.answer.map_or(self.bytes.len(), |answer| answer.moves)
    }

    /// What is answered and left in a slice of so many entries.
    fn expected(&self, capacity: usize, around: Surroundings) -> (Answer, After) {
        let mut states = Output::new(capacity, around);
        let answer = self.answer.and_then(|answer| {
            let front = states.slice().get_mut(..answer.moves);
            front
                .ok_or(Refusal::SliceShort)?
                .copy_from_slice(&self.entries);
            Ok(answer)
        });
        let returned = answer.map_err(|bad| (number(bad.refusal), bad.at));
        (answer, After { returned, states })
    }

    /// What a call answers and leaves there.
    fn by(&self, call: Call, capacity: usize, around: Surroundings) -> After {
        let lent = Input::new(&self.bytes, around);
        let mut states = Output::new(capacity, around);
        let returned = call(lent.slice(), states.slice());
        lent.expect_still(&self.bytes);
        After { returned, states }
    }
}

/// A refusal as the library gives it: its number, and which move it is for.
type Number = (u32, Option<RefusedMove>);

/// The library, or a version in Rust whose refusals are given so too.
type Call = fn(&[u8], &mut [u16]) -> Result<Traced, Number>;

/// The library's version.
fn by_library(trace: &[u8], states: &mut [u16]) -> Result<Traced, Number> {
    let answer = nenturxo::trace(trace, states);
    let nenturxo::Traced { moves, rooms, runs } = answer.map_err(|bad| {
        let at = bad.at.map(|at| RefusedMove {
            ordinal: at.ordinal,
            rooms: at.rooms,
            runs: at.runs,
        });
        (bad.error.number(), at)
    })?;
    Ok(Traced { moves, rooms, runs })
}

/// The fast Rust version.
fn by_fast(trace: &[u8], states: &mut [u16]) -> Result<Traced, Number> {
    reference::fast::trace(trace, states).map_err(|bad| (number(bad.refusal), bad.at))
}

/// What a call answers and leaves.
#[derive(PartialEq, Eq)]
struct After {
    returned: Result<Traced, Number>,
    states: Output<u16>,
}

impl Tally {
    /// Hands a trace and a slice of `capacity` entries to the library and to the
    /// fast Rust version, and gives the answer that is known, once both agree
    /// with it.
    ///
    /// # Panics
    ///
    /// If they differ in their answer or in any entry in or around the slices.
    pub fn trace(&mut self, given: &GivenTrace, capacity: usize) -> Answer {
        let answers = SURROUNDINGS.map(|around| {
            let (answer, expected) = given.expected(capacity, around);
            let library = given.by(by_library, capacity, around);
            let fast = given.by(by_fast, capacity, around);
            assert!(
                library == expected && fast == expected,
                "the versions differ, or entries changed that must not\n\
                 case     capacity {capacity}, trace [{given}]\n\
                 library  {library}\n\
                 expected {expected}\n\
                 fast     {fast}"
            );
            answer
        });
        self.count(&answers[0].map_err(|bad| bad.refusal));
        answers[0]
    }

    /// Compares a trace that must be accepted: in a slice of just as many entries
    /// as it has moves, in a longer one, and refused in a shorter one, if it has
    /// a move.
    ///
    /// # Panics
    ///
    /// If the answer is another, or as [`Self::trace`].
    pub fn expect_traced(&mut self, given: &GivenTrace, expected: Traced) {
        let moves = expected.moves;
        for capacity in [moves, moves + 3] {
            assert_eq!(self.trace(given, capacity), Ok(expected), "{given}");
        }
        if moves > 0 {
            let short = self.trace(given, moves - 1);
            assert_eq!(short, Err(Refusal::SliceShort.into()), "{given}");
        }
    }

    /// Compares a trace that must be refused, whatever the slice: with none to
    /// write to, with a short one and with a long one.
    ///
    /// # Panics
    ///
    /// If the answer is another, or as [`Self::trace`].
    pub fn expect_refused_trace(&mut self, given: &GivenTrace, expected: TraceRefusal) {
        for capacity in [0, 2, given.bytes.len() + 1] {
            let answer = self.trace(given, capacity);
            assert_eq!(answer, Err(expected), "{given} into {capacity}");
        }
    }
}

impl fmt::Display for GivenTrace {
    fn fmt(&self, f: &mut fmt::Formatter<'_>) -> fmt::Result {
        f.write_str(&shown(&self.bytes))
    }
}

impl fmt::Display for After {
    fn fmt(&self, f: &mut fmt::Formatter<'_>) -> fmt::Result {
        match self.returned {
            Ok(answer) => write!(f, "{answer:?}, ")?,
            Err((number, None)) => write!(f, "refusal {number}, ")?,
            Err((number, Some(at))) => write!(f, "refusal {number} of {at:?}, ")?,
        }
        write!(f, "states {}", self.states)
    }
}
