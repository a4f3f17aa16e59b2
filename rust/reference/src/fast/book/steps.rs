//! The steps of a record, four triples at a time.
//!
//! The runs below the current one, p, and those above, q, are in one word, p in
//! its low byte and q in the next. A table has for each four triples what they
//! add to both, and the least that is added on the way. So a run is missing
//! exactly if one of the two bytes with the latter falls below 0, which sets its
//! highest bit. These bits are gathered and looked at once, after the last step.
//!
//! A count that is 128 or more may set that bit too. But no such record is
//! accepted: 254 triples cannot make 128 runs beside the current one and then
//! join them all.

use super::few;
use super::walk::{End, Walk};

/// What is set in the two counts of runs if one is below 0.
pub(in crate::fast) const BELOW_0: u16 = 0x8080;

/// The third bits of sixteen triples.
const THIRD_BITS: u64 = 0x2492_4924_9249_0000;

/// The two low ones of each six bits that two triples take.
const PAIRS: u64 = 0x0c30_c30c_30c3_0000;

/// Six bits of every twelve.
const EVERY_OTHER: u64 = 0x03f0_3f03_f03f;

/// What four triples do to the counts of runs.
#[derive(Clone, Copy)]
pub(in crate::fast) struct Four {
    /// What they add.
    pub(in crate::fast) sum: u16,
    /// The least that is added on the way, to each count by itself.
    pub(in crate::fast) least: u16,
}

impl Four {
    /// Whether they have what they need where there is one run, and leave one.
    pub(in crate::fast) const fn leaves_one_run(self) -> bool {
        self.sum == 0 && self.least == 0
    }
}

/// By the 12 bits of four triples.
static FOURS: [Four; 4096] = {
    let mut fours = [Four { sum: 0, least: 0 }; 4096];
    let mut bits = 0;
    while bits < 4096 {
        fours[bits] = four(bits);
        bits += 1;
    }
    fours
};

/// What the four triples do that are in the low 12 bits of a word, looked up.
#[inline(always)]
pub(in crate::fast) fn four_at_the_end(word: u64) -> Four {
    FOURS[(word & 0xfff) as usize]
}

/// What four triples do, found step by step.
pub(in crate::fast) const fn four(bits: usize) -> Four {
    let (mut p, mut q) = (0i16, 0i16);
    let (mut least_p, mut least_q) = (0, 0);
    let mut left = 4;
    while left > 0 {
        left -= 1;
        let triple = (bits >> (3 * left)) as i16;
        let [first, second, third] = [triple >> 2 & 1, triple >> 1 & 1, triple & 1];
        p += 1 - second - third;
        q += third - first;
        if p < least_p {
            least_p = p;
        }
        if q < least_q {
            least_q = q;
        }
    }
    Four {
        sum: (p + 256 * q) as u16,
        least: (least_p + 256 * least_q) as u16,
    }
}

/// The walk so far.
#[derive(Default)]
pub(super) struct ByFours {
    /// The two counts of runs.
    runs: u16,
    /// What was ever set in them.
    ever: u16,
    /// How many third bits were 1, in eight counts of six bits: one for each two
    /// triples of a word. There are at most sixteen words.
    falls: u64,
}

impl Walk for ByFours {
    #[inline(always)]
    fn go(&mut self, word: u64) {
        for shift in [52, 40, 28, 16] {
            let four = four_at_the_end(word >> shift);
            self.ever |= self.runs.wrapping_add(four.least);
            self.runs = self.runs.wrapping_add(four.sum);
        }
        let third_bits = word & THIRD_BITS;
        self.falls += (third_bits + (third_bits >> 3)) & PAIRS;
    }

    /// All sixteen steps, which are only four look-ups.
    #[inline(always)]
    fn go_last(&mut self, word: u64, _: usize) {
        self.go(word);
    }

    #[inline(always)]
    fn end(self) -> End {
        End {
            bad: (self.ever & BELOW_0 | self.runs).into(),
            falls: self.all_falls(),
        }
    }

    #[inline(always)]
    fn end_of_four(word: u64) -> End {
        few::end_of_four(word)
    }
}

impl ByFours {
    /// The sum of the eight counts. To count the ones of each word would take
    /// longer where the processor has no instruction for it.
    #[inline(always)]
    fn all_falls(&self) -> u32 {
        let counts = self.falls >> 16;
        let four = (counts & EVERY_OTHER) + (counts >> 6 & EVERY_OTHER);
        (four.wrapping_mul(0x0010_0100_1001) >> 36 & 0xff) as u32
    }
}
