//! What several of the tests are made of.

use nenturxo::COUNTED_ROOMS;
use std::ops::RangeInclusive;

/// The numbers of rooms whose plans are counted.
pub const COUNTED: RangeInclusive<u8> = 1..=COUNTED_ROOMS;

/// How many plans of `n` rooms have 0 to n − 1 rises, by the library.
pub fn counts(n: u8) -> Vec<u64> {
    let count = |rises| nenturxo::plan_count(n, rises).expect("these are counted");
    (0..n).map(count).collect()
}

/// How many plans of `n` rooms there are, by the library.
pub fn total(n: u8) -> u64 {
    nenturxo::plan_total(n).expect("these are counted")
}

/// The number of rises in a record that is accepted: of the triples whose third
/// bit is 0. Triple i, counted from 0, has the bits 3i to 3i + 2 of the body, of
/// which the first one is the highest bit of the first byte.
pub fn rises_in(record: &[u8]) -> usize {
    let (&n, body) = record.split_first().expect("a record has a kind");
    let thirds = (2..3 * usize::from(n) - 3).step_by(3);
    let rises = thirds.filter(|bit| body[bit / 8] >> (7 - bit % 8) & 1 == 0);
    rises.count()
}

#[test]
fn rises_are_read_off_the_bytes() {
    // 1; 1 2; 2 1; and 4 1 3 5 2, whose triples are 001 100 010 111.
    let records: [&[u8]; 4] = [&[0x01], &[0x02, 0x40], &[0x02, 0xa0], &[0x05, 0x31, 0x70]];
    assert_eq!(records.map(rises_in), [0, 1, 0, 2]);
}
