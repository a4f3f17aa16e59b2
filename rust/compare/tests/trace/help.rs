//! What several of the tests are made of.

use compare::{GivenTrace, Tally};
use reference::cases::trace::{Draft, Habits};
use reference::cases::Random;
use reference::{Refusal, RefusedMove, TraceRefusal, Traced};

/// What an accepted trace is answered with.
pub fn traced(moves: usize, rooms: u8, runs: u8) -> Traced {
    Traced { moves, rooms, runs }
}

/// What a trace is answered with whose move with this ordinal is refused, after
/// so many rooms and runs.
pub fn refused(refusal: Refusal, ordinal: usize, rooms: u8, runs: u8) -> TraceRefusal {
    TraceRefusal::of_move(
        refusal,
        RefusedMove {
            ordinal,
            rooms,
            runs,
        },
    )
}

/// A random trace of just so many bytes, with some habits.
pub fn some_trace(length: usize, random: &mut Random) -> Draft {
    let habits = Habits::some(random);
    Draft::random(length, habits, random)
}

/// Compares a trace with the definitions, which must say what is known of it
/// too: in a slice that is just long enough, in a longer one and in a shorter
/// one.
pub fn expect_known(tally: &mut Tally, draft: &Draft) {
    tally.expect_traced(&GivenTrace::new(&draft.bytes[..]), draft.answer());
    // That the definitions wrote the same entries is compared here.
    let known = tally.trace(&GivenTrace::known(draft), draft.entries.len());
    assert_eq!(known, Ok(draft.answer()), "{:02X?}", draft.bytes);
}

/// The cases of [`expect_known`] for a trace with moves, of which the third one
/// is refused.
pub const CASES: usize = 4;
