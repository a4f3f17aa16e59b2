//! The steps of a record.

use super::basics::BODY;
use crate::Refusal;

/// A step of the sheet's table, seen in its direction: bit 0 if it goes down,
/// bit 1 if the label joins the current run, bit 2 if it joins the next run
/// ahead.
#[derive(Clone, Copy)]
pub(super) struct Step(u8);

/// The steps to the places from 1 on: place 0 is that of position 1. They are
/// stored eight at a time, so there is room for 256 of them.
pub(super) type Steps = [Step; 257];

/// Before they are read.
pub(super) const NO_STEPS: Steps = [Step(0); 257];

/// One place back, in additions that wrap round.
const BACK: usize = usize::MAX;

impl Step {
    pub(super) fn goes_down(self) -> bool {
        self.0 & 1 != 0
    }

    pub(super) fn joins_current(self) -> bool {
        self.0 & 2 != 0
    }

    pub(super) fn joins_next(self) -> bool {
        self.0 & 4 != 0
    }

    /// One place on in a store that has the runs below the current one at its
    /// front and those above at its back.
    pub(super) fn onward(self) -> usize {
        const TABLE: [usize; 8] = [1, BACK, 1, BACK, 1, BACK, 1, BACK];
        TABLE[usize::from(self.0 % 8)]
    }

    /// As [`Self::onward`] if the step leaves the current run behind, else 0.
    pub(super) fn leaves(self) -> usize {
        const TABLE: [usize; 8] = [1, BACK, 0, 0, 1, BACK, 0, 0];
        TABLE[usize::from(self.0 % 8)]
    }

    /// As [`Self::onward`] if the step takes up the next run, else 0.
    pub(super) fn takes(self) -> usize {
        const TABLE: [usize; 8] = [0, 0, 0, 0, 1, BACK, 1, BACK];
        TABLE[usize::from(self.0 % 8)]
    }
}

/// The number of rooms and the body of a record, or one of 9, 10, 11 and 14.
#[inline(always)]
pub(super) fn body_of(record: &[u8]) -> Result<(usize, &[u8]), Refusal> {
    let (&kind, body) = record.split_first().ok_or(Refusal::NoKind)?;
    let n = usize::from(kind);
    let bits = (3 * n).checked_sub(3).ok_or(Refusal::NoKind)?;
    let length = bits.div_ceil(8);
    if body.len() < length {
        return Err(Refusal::BodyShort);
    }
    if body.len() > length {
        return Err(Refusal::BytesAfter);
    }
    let spare = (1 << (8 * length - bits)) - 1;
    if body.last().is_some_and(|last| last & spare != 0) {
        return Err(Refusal::SpareBit);
    }
    Ok((n, body))
}

/// Reads the steps and gives the number of rooms, or one of 9, 10, 11 and 14.
#[inline(always)]
pub(super) fn read(record: &[u8], steps: &mut Steps) -> Result<usize, Refusal> {
    let (n, body) = body_of(record)?;
    let length = body.len();
    let mut padded = [0; BODY];
    padded[..length].copy_from_slice(body);
    let eights = steps[1..].chunks_exact_mut(8).zip(padded.chunks_exact(3));
    for (eight, bytes) in eights.take(length.div_ceil(3)) {
        let triples = u32::from_be_bytes([0, bytes[0], bytes[1], bytes[2]]);
        eight.copy_from_slice(&eight_steps(triples).map(Step));
    }
    Ok(n)
}

/// Eight triples in 24 bits, the first one on top, each in a byte of its own.
#[inline(always)]
pub(super) fn apart(triples: u32) -> u64 {
    // Halves, quarters and then eighths of the bits move apart.
    let bits = u64::from(triples);
    let bits = (bits | bits << 20) & 0x0000_0fff_0000_0fff;
    let bits = (bits | bits << 10) & 0x003f_003f_003f_003f;
    (bits | bits << 5) & 0x0707_0707_0707_0707
}

/// The steps of eight triples in 24 bits.
fn eight_steps(triples: u32) -> [u8; 8] {
    let bits = apart(triples);
    // Going up, the first bit of a triple tells of the next run and the
    // second one of the current run; going down it is the other way round.
    let differ = (bits >> 1 ^ bits >> 2) & bits & 0x0101_0101_0101_0101;
    (bits ^ differ << 1 ^ differ << 2).to_be_bytes()
}
