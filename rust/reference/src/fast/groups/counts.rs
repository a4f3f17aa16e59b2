//! How many runs there are at every place, eight places at a time.

use crate::fast::book::{four_at_the_end, last_word, word, BELOW_0, WINDOW};
use crate::fast::steps::apart;
use std::hint::select_unpredictable;

/// 1 in every byte. A word times this has in each byte the sum of that byte and
/// of all lower ones.
const ONES: u64 = 0x0101_0101_0101_0101;

/// The highest bit of every byte.
const HIGH: u64 = 0x8080_8080_8080_8080;

/// The triples of an accepted record, and the two counts of runs at every eighth
/// place. Others are found from these where they are asked for.
pub(super) struct Counts<'a, const EIGHTS: usize> {
    window: &'a [u8; WINDOW],
    /// The runs below the current one in the low byte, those above in the next.
    runs: [u16; EIGHTS],
}

impl<'a, const EIGHTS: usize> Counts<'a, EIGHTS> {
    /// Those of a record of `n` rooms, of which the window is a copy, unless a
    /// run is missing or left.
    #[inline(always)]
    pub(super) fn of(n: usize, window: &'a [u8; WINDOW]) -> Option<Self> {
        let mut runs = [0; EIGHTS];
        let [mut now, mut ever] = [0u16; 2];
        let mut go = |word: u64, index: usize| {
            for (half, shifts) in [[52, 40], [28, 16]].into_iter().enumerate() {
                runs[(2 * index + half) % EIGHTS] = now;
                for shift in shifts {
                    let four = four_at_the_end(word >> shift);
                    ever |= now.wrapping_add(four.least);
                    now = now.wrapping_add(four.sum);
                }
            }
        };
        let sixteens = (n - 1) / 16;
        for index in 0..sixteens {
            go(word(window, index), index);
        }
        go(last_word(n as u8, window), sixteens);
        (ever & BELOW_0 | now == 0).then_some(Self { window, runs })
    }

    /// The eight places from eight times `index` on.
    #[inline(always)]
    pub(super) fn eight(&self, index: usize) -> Eight {
        let bytes = self.window[(1 + 3 * index) % (WINDOW - 3)..].first_chunk();
        let triples = u32::from_be_bytes(*bytes.expect("four bytes")) >> 8;
        let triples = apart(triples).swap_bytes();
        let [firsts, seconds, thirds] = [2, 1, 0].map(|bit| triples >> bit & ONES);
        let [below, above] = self.runs[index % EIGHTS].to_le_bytes().map(u64::from);
        // A step adds 1 to the runs below, less its second and third bits, and
        // to those above its third bit, less the first one. Sums of bytes may
        // borrow from higher ones on the way, but not in the end.
        let more_below = ONES.wrapping_sub(seconds).wrapping_sub(thirds) << 8;
        let more_above = thirds.wrapping_sub(firsts) << 8;
        Eight {
            index,
            below: below.wrapping_add(more_below).wrapping_mul(ONES),
            above: above.wrapping_add(more_above).wrapping_mul(ONES),
            downs: thirds,
        }
    }
}

/// Eight places, each with a byte, the first one lowest.
#[derive(Clone, Copy)]
pub(super) struct Eight {
    index: usize,
    /// The number of runs below the current one.
    below: u64,
    /// The number of runs above it.
    above: u64,
    /// 1 if the step to the next place goes down.
    downs: u64,
}

impl Eight {
    /// Which eight places they are.
    #[inline(always)]
    pub(super) fn index(&self) -> usize {
        self.index
    }

    /// The number of runs at a place that are above the current one, or else
    /// below.
    #[inline(always)]
    pub(super) fn runs(&self, is_above: bool, place: usize) -> u64 {
        byte(self.all_runs(is_above), place)
    }

    #[inline(always)]
    fn all_runs(&self, is_above: bool) -> u64 {
        select_unpredictable(is_above, self.above, self.below)
    }

    /// Whether the step from a place to the next one goes down.
    #[inline(always)]
    pub(super) fn goes_down(&self, place: usize) -> bool {
        byte(self.downs, place) != 0
    }

    /// The first of these places from which all steps go down, or else up, as far
    /// as to the place after `last`; that place itself if not even one does.
    #[inline(always)]
    pub(super) fn start_of_run(&self, down: bool, last: usize) -> usize {
        let others = self.downs ^ if down { ONES } else { 0 };
        let others = others & up_to(last);
        8 * self.index + (71 - others.leading_zeros() as usize) / 8
    }

    /// The last of these places up to `last` where fewer runs than `least` are
    /// above the current one, or else below.
    #[inline(always)]
    pub(super) fn last_with_fewer(&self, is_above: bool, least: u64, last: usize) -> Option<usize> {
        // No byte borrows from the next one, since no count is 128 or more.
        let enough = (self.all_runs(is_above) | HIGH).wrapping_sub(least * ONES);
        let fewer = !enough & HIGH & up_to(last);
        let place = 8 * self.index + (63 - fewer.leading_zeros() as usize % 64) / 8;
        (fewer != 0).then_some(place)
    }
}

/// All bits of the bytes up to that of a place.
#[inline(always)]
fn up_to(place: usize) -> u64 {
    u64::MAX >> (8 * (7 - place % 8))
}

/// The byte of a place.
#[inline(always)]
fn byte(word: u64, place: usize) -> u64 {
    word >> (8 * (place % 8)) & 0xff
}
