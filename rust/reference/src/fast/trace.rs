//! "Trace", by two passes over the moves: the first one judges them, and the
//! second one, once nothing can be refused any more, writes the entries.
//!
//! The rooms, the runs and what decides about a refusal are counted in one number,
//! and with each room that is present this number is kept, so that to take a room
//! away is to go back to the one before; see [`plan`]. The bytes are taken eight at
//! a time; see [`word`]. Whether a trace is refused is all that the first pass
//! tells. Which move that is for, and why, is found by a slow replay, once.

mod plan;
mod refusal;
mod word;

use crate::{Refusal, TraceRefusal, Traced, TRACE_LENGTH};
use plan::Plan;
use refusal::refused_move;
use word::{move_at, Word};

/// Traces of so many bytes come to 63 rooms at most.
const SHORT: usize = 124;

/// Trace, with the answers of [`crate::trace()`].
///
/// # Errors
///
/// As there.
// Not inlined, so that a benchmark pays for a call as with a library.
#[inline(never)]
pub fn trace(trace: &[u8], states: &mut [u16]) -> Result<Traced, TraceRefusal> {
    if trace.len() > TRACE_LENGTH {
        return Err(Refusal::BookLength.into());
    }
    // A small store takes less time to clear.
    if trace.len() <= SHORT {
        go::<65>(trace, states)
    } else {
        go::<257>(trace, states)
    }
}

/// The answer for a trace that is not too long, with a store of so many places.
#[inline(always)]
fn go<const PLACES: usize>(trace: &[u8], states: &mut [u16]) -> Result<Traced, TraceRefusal> {
    let mut store = [0; PLACES];
    let moves = judge(Plan::start(&mut store), trace);
    let moves = moves.ok_or_else(|| refused_move(trace))?;
    let front = states.get_mut(..moves).ok_or(Refusal::SliceShort)?;
    let [rooms, runs] = write(Plan::start(&mut store), trace, front).to_be_bytes();
    Ok(Traced { moves, rooms, runs })
}

/// The number of moves, unless one is refused.
#[inline(always)]
fn judge<const PLACES: usize>(mut plan: Plan<'_, PLACES>, trace: &[u8]) -> Option<usize> {
    let (mut place, mut moves) = (0, 0);
    while let Some(word) = Word::at(trace, place) {
        let made = plan.make_some(word, &mut [0; 8]);
        if word.has_a_byte_above_7() || plan.was_refused() {
            return None;
        }
        place += made.bytes;
        moves += made.moves;
    }
    while place < trace.len() {
        let (code, bytes) = move_at(trace, place);
        plan.make(code);
        if plan.was_refused() {
            return None;
        }
        place += bytes;
        moves += 1;
    }
    Some(moves)
}

/// Writes the entries of a trace that is accepted, one a move, and gives the
/// last one.
#[inline(always)]
fn write<const PLACES: usize>(
    mut plan: Plan<'_, PLACES>,
    trace: &[u8],
    entries: &mut [u16],
) -> u16 {
    let (mut place, mut moves) = (0, 0);
    while let (Some(word), Some(eight)) =
        (Word::at(trace, place), entries[moves..].first_chunk_mut())
    {
        let made = plan.make_some(word, eight);
        place += made.bytes;
        moves += made.moves;
    }
    for entry in &mut entries[moves..] {
        let (code, bytes) = move_at(trace, place);
        plan.make(code);
        *entry = plan.entry();
        place += bytes;
    }
    plan.entry()
}

#[cfg(test)]
mod tests;
