//! Why a trace is refused.

use crate::{Refusal, RefusedMove, TraceRefusal};

/// Which move it is, and with which of 28, 1, 29, 12 and 13, for a trace that
/// has a refused move.
#[cold]
#[inline(never)]
pub(super) fn refused_move(trace: &[u8]) -> TraceRefusal {
    // With each room that is present, p and q.
    let mut counts = [(0, 0); 255];
    let (mut newest, mut place, mut ordinal) = (0, 0, 1);
    let (refusal, runs) = loop {
        let (p, q) = counts[newest];
        let refused = |refusal| (refusal, p + q + 1);
        match trace[place..] {
            [1, 0..=7, ..] if newest == 254 => break refused(Refusal::ListLength),
            [1, triple @ 0..=7, ..] => {
                let (p, q) = runs_after(p, q, triple);
                if p < 0 || q < 0 {
                    break refused(Refusal::RunMissing);
                }
                newest += 1;
                counts[newest] = (p, q);
                place += 2;
            }
            [2, ..] if newest == 0 => break refused(Refusal::OnlyRoom),
            [2, ..] => (newest, place) = (newest - 1, place + 1),
            [3, ..] if p + q > 0 => break refused(Refusal::RunsLeft),
            [3, ..] => place += 1,
            _ => break refused(Refusal::BadMove),
        }
        ordinal += 1;
    };
    let at = RefusedMove {
        ordinal,
        rooms: newest as u8 + 1,
        runs: runs as u8,
    };
    TraceRefusal::of_move(refusal, at)
}

/// p and q after the triple with this number, below 0 where a run is missing.
fn runs_after(p: i16, q: i16, triple: u8) -> (i16, i16) {
    let [first, second, third] = [triple >> 2, triple >> 1 & 1, triple & 1].map(i16::from);
    (p + 1 - second - third, q + third - first)
}
