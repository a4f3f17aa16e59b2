//! Why a record has no tree.

use crate::fast::basics::BODY;
use crate::Refusal;

/// Which of 12, 13 and 19 it is, for a record of so many rooms with this body
/// whose parts do not join.
#[cold]
pub(super) fn refusal(n: usize, body: &[u8]) -> Refusal {
    let mut padded = [0; BODY];
    padded[..body.len()].copy_from_slice(body);
    let (mut runs, mut ever) = (0u32, 0);
    let mut left = n - 1;
    for bytes in padded.chunks_exact(3).take(body.len().div_ceil(3)) {
        let mut triples = u32::from_be_bytes([bytes[0], bytes[1], bytes[2], 0]);
        for _ in 0..left.min(8) {
            runs = runs.wrapping_add(CHANGES[(triples >> 29) as usize]);
            ever |= runs;
            triples <<= 3;
        }
        left = left.saturating_sub(8);
    }
    if ever & BELOW_0 != 0 {
        Refusal::RunMissing
    } else if runs != 0 {
        Refusal::RunsLeft
    } else {
        Refusal::NotSlicing
    }
}

/// How a step changes the counts of runs, p in the lower half and q in the
/// upper one: the sheet's column "p, q after", by the triple's number.
const CHANGES: [u32; 8] = {
    let mut changes = [0; 8];
    let mut triple = 0;
    while triple < 8 {
        let [first, second, third] = [triple >> 2, triple >> 1 & 1, triple & 1];
        let p = 1u32.wrapping_sub(second).wrapping_sub(third);
        let q = third.wrapping_sub(first);
        changes[triple as usize] = p.wrapping_add(q << 16);
        triple += 1;
    }
    changes
};

/// What is set in one of the counts, which are at most 254, if a run is
/// missing.
const BELOW_0: u32 = 0x8000_8000;
