//! Four triples that are all of a record: all pairs of rooms are looked up at
//! once.

use super::members::{Labels, Parted};
use crate::fast::book::four;

/// The greatest number of rooms.
pub(super) const FEW: usize = 5;

/// The triple 010 four times, which adds rooms at the end and leaves no run.
const ON_TOP: usize = 0o2222;

/// What is set for a record that is not accepted.
const REFUSED: u32 = 1 << 15;

/// For each place, the first of the bits that stand for the pairs of a place
/// before it and this one.
const PAIRS: [usize; FEW] = [0, 0, 1, 3, 6];

/// By the 12 bits of four triples, the pairs in which the earlier room has the
/// larger label.
static LARGER: [u16; 4096] = {
    let mut larger = [REFUSED as u16; 4096];
    let mut bits = 0;
    while bits < 4096 {
        if four(bits).leaves_one_run() {
            larger[bits] = larger_in_pairs(bits);
        }
        bits += 1;
    }
    larger
};

/// The pairs of an accepted record, found on the way back from each place.
const fn larger_in_pairs(bits: usize) -> u16 {
    // The runs below the current one, and those above, at each place.
    let mut runs = [[0; 2]; FEW];
    let mut place = 1;
    while place < FEW {
        let triple = bits >> (3 * (4 - place));
        let [first, second, third] = [triple >> 2 & 1, triple >> 1 & 1, triple & 1];
        let [below, above] = runs[place - 1];
        runs[place] = [below + 1 - second - third, above + third - first];
        place += 1;
    }
    let mut larger = 0;
    let mut later = 1;
    while later < FEW {
        let mut is_above = bits >> (3 * (4 - later)) & 1;
        let mut beyond = runs[later - 1][1 - is_above];
        let mut place = later;
        while place > 0 {
            place -= 1;
            if runs[place][1 - is_above] < beyond {
                is_above = 1 - is_above;
                beyond = runs[place][1 - is_above];
            }
            larger |= (is_above << (PAIRS[later] + place)) as u16;
        }
        later += 1;
    }
    larger
}

/// The pairs of a record of `n` rooms, at most [`FEW`], in which the earlier room
/// has the larger label, unless a run is missing or left.
#[inline(always)]
pub(super) fn larger(n: usize, body: &[u8]) -> Option<u32> {
    let byte = |at: usize| usize::from(body.get(at).copied().unwrap_or(0));
    let there = 0xfff & 0xfff << (3 * FEW - 3 * n);
    let bits = (byte(0) << 4 | byte(1) >> 4) & there | ON_TOP & !there;
    let larger = u32::from(LARGER[bits % 4096]);
    (larger & REFUSED == 0).then_some(larger)
}

/// The labels of two groups, unless the record of `n` rooms is not accepted.
#[inline(always)]
pub(super) fn go(n: usize, body: &[u8], parted: &Parted) -> Option<Labels> {
    let (earlier, later) = (parted.earlier.few(), parted.later.few());
    let mut pairs = 0;
    for (place, &pair) in PAIRS.iter().enumerate().skip(1) {
        pairs |= (later >> place & 1) * (earlier << pair);
    }
    Some(match larger(n, body)? & pairs {
        0 => Labels::Smaller,
        all if all == pairs => Labels::Larger,
        _ => Labels::Mixed,
    })
}
