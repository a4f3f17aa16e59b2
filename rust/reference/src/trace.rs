//! The replay of a drafting trace of M-111, and its call "Trace".

use crate::{Refusal, Runs, Triple};
use std::fmt;

/// The length of the longest trace.
pub const TRACE_LENGTH: usize = 65_535;

/// What an accepted trace returns: the count of its moves and the final rooms
/// and runs.
#[derive(Clone, Copy, Debug, PartialEq, Eq)]
pub struct Traced {
    /// How many moves there are.
    pub moves: usize,
    /// The rooms after the last one.
    pub rooms: u8,
    /// The runs after the last one.
    pub runs: u8,
}

/// The first refused move of a trace.
#[derive(Clone, Copy, Debug, PartialEq, Eq)]
pub struct RefusedMove {
    /// Its ordinal, from 1.
    pub ordinal: usize,
    /// The rooms before it.
    pub rooms: u8,
    /// The runs before it.
    pub runs: u8,
}

/// Why a trace is refused.
#[derive(Clone, Copy, Debug, PartialEq, Eq)]
pub struct TraceRefusal {
    /// The cause.
    pub refusal: Refusal,
    /// If that is a move, which one it is.
    pub at: Option<RefusedMove>,
}

impl TraceRefusal {
    /// The refusal of a move.
    #[must_use]
    pub const fn of_move(refusal: Refusal, at: RefusedMove) -> Self {
        Self {
            refusal,
            at: Some(at),
        }
    }
}

impl From<Refusal> for TraceRefusal {
    /// A refusal for anything but a move: the number alone.
    fn from(refusal: Refusal) -> Self {
        Self { refusal, at: None }
    }
}

impl fmt::Display for TraceRefusal {
    fn fmt(&self, f: &mut fmt::Formatter<'_>) -> fmt::Result {
        if let Some(at) = self.at {
            write!(f, "move {} of the trace, ", at.ordinal)?;
            write!(f, "after rooms {} and runs {}: ", at.rooms, at.runs)?;
        }
        self.refusal.fmt(f)
    }
}

impl std::error::Error for TraceRefusal {}

/// Trace: replays the moves of a trace over a plan that starts with one room.
/// After each move the rooms and runs go to the front of `states`, one entry a
/// move, as 256 × rooms + runs.
///
/// The rest of `states` keeps its entries.
///
/// # Errors
///
/// 21 before all moves; the first refused move, with the first cause found in
/// the order 28, then 1 or 29, then 12 or 13; 15 after the last move. `states`
/// is then as it was.
pub fn trace(trace: &[u8], states: &mut [u16]) -> Result<Traced, TraceRefusal> {
    if trace.len() > TRACE_LENGTH {
        return Err(Refusal::BookLength.into());
    }
    let (mut plan, mut entries) = (Plan::start(), Vec::new());
    let mut rest = trace;
    while !rest.is_empty() {
        let refused = |refusal| TraceRefusal::of_move(refusal, plan.refused(entries.len() + 1));
        let (made, after) = first_move(rest).ok_or(refused(Refusal::BadMove))?;
        plan = plan.after(made).map_err(refused)?;
        entries.push(256 * u16::from(plan.rooms()) + u16::from(plan.runs()));
        rest = after;
    }
    let front = states.get_mut(..entries.len()).ok_or(Refusal::SliceShort)?;
    front.copy_from_slice(&entries);
    Ok(Traced {
        moves: entries.len(),
        rooms: plan.rooms(),
        runs: plan.runs(),
    })
}

/// A move.
#[derive(Clone, Copy)]
enum Move {
    /// Kind 1 adds a room.
    Add(Triple),
    /// Kind 2 takes the newest room away.
    TakeAway,
    /// Kind 3 claims that one run is left.
    Claim,
}

/// The move that begins with the first of these bytes, and the bytes after it,
/// unless its kind is unknown, its body missing or its triple above 7.
fn first_move(bytes: &[u8]) -> Option<(Move, &[u8])> {
    match bytes {
        [1, number @ 0..=7, after @ ..] => Some((Move::Add(triple(*number)), after)),
        [2, after @ ..] => Some((Move::TakeAway, after)),
        [3, after @ ..] => Some((Move::Claim, after)),
        _ => None,
    }
}

/// The triple with a number from 0 to 7, the first bit worth 4.
fn triple(number: u8) -> Triple {
    [4, 2, 1].map(|worth| number & worth != 0)
}

/// A plan: the triples still present, and the runs that they give from the
/// start.
struct Plan {
    triples: Vec<Triple>,
    runs: Runs,
}

impl Plan {
    /// A plan starts with one room, which has no triple.
    fn start() -> Self {
        Self::of(Vec::new())
    }

    /// The plan of these triples, each of which has what it needs: all of them
    /// are walked, from the start.
    fn of(triples: Vec<Triple>) -> Self {
        let mut runs = Runs::start();
        for &triple in &triples {
            runs.step(triple);
        }
        Self { triples, runs }
    }

    /// The plan after a move.
    ///
    /// # Errors
    ///
    /// 1 for a room past 255, and then 12 for a triple that needs a run that is
    /// missing; 29 for taking away the only room; 13 for a claim where more than
    /// one run is left.
    fn after(&self, made: Move) -> Result<Self, Refusal> {
        let mut triples = self.triples.clone();
        match made {
            Move::Add(_) if self.rooms() == u8::MAX => return Err(Refusal::ListLength),
            Move::Add(triple) if !self.runs.have_what_it_needs(triple) => {
                return Err(Refusal::RunMissing);
            }
            Move::Add(triple) => triples.push(triple),
            Move::TakeAway => drop(triples.pop().ok_or(Refusal::OnlyRoom)?),
            Move::Claim if self.runs() > 1 => return Err(Refusal::RunsLeft),
            Move::Claim => {}
        }
        Ok(Self::of(triples))
    }

    /// The number of rooms, 1 to 255: the first one has no triple.
    fn rooms(&self) -> u8 {
        u8::try_from(1 + self.triples.len()).expect("at most 255 rooms")
    }

    /// The number of runs: the current one, p below it and q above. Every room
    /// makes at most one more, so there are at most 255.
    fn runs(&self) -> u8 {
        u8::try_from(self.runs.p() + self.runs.q() + 1).expect("at most 255 runs")
    }

    /// The refused move with this ordinal, if these are the rooms and runs
    /// before it.
    fn refused(&self, ordinal: usize) -> RefusedMove {
        RefusedMove {
            ordinal,
            rooms: self.rooms(),
            runs: self.runs(),
        }
    }
}

#[cfg(test)]
mod tests;
