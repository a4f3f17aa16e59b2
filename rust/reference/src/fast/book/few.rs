//! Four triples that are all of a record: they are looked up at once.

use super::steps::four;
use super::walk::End;

/// What stands for a record that is not accepted.
const REFUSED: u8 = 8;

/// By the 12 bits of four triples, the number of third bits that are 1 if they
/// leave one run.
static FALLS: [u8; 4096] = {
    let mut falls = [REFUSED; 4096];
    let mut bits = 0;
    while bits < 4096 {
        if four(bits).leaves_one_run() {
            falls[bits] = (bits & 0o1111).count_ones() as u8;
        }
        bits += 1;
    }
    falls
};

/// What the triples on top of a word come to.
#[inline(always)]
pub(super) fn end_of_four(word: u64) -> End {
    let falls = FALLS[(word >> 52) as usize];
    End {
        bad: (falls & REFUSED).into(),
        falls: falls.into(),
    }
}
