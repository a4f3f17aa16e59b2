//! Positions above n: every single bit there, 256 too.

use crate::help::{from_to, groups_of};
use compare::{GivenRecord, Tally};
use reference::cases::groups::group_of;
use reference::cases::walk::{list_in_turn, Walked};
use reference::{Refusal, Side};

const OUTSIDE: Result<Option<Side>, Refusal> = Err(Refusal::PositionOutside);

/// Every single position above n, in either group, alone and beside a room.
#[test]
fn every_position_above_n() {
    const COUNTS: [usize; 14] = [1, 2, 7, 8, 9, 63, 64, 65, 127, 128, 129, 192, 254, 255];
    let name = "positions above n";
    let mut cases = 0;
    let tally = Tally::of_rounds(name, 621, COUNTS, |tally, random, n| {
        let given = GivenRecord::new(list_in_turn(n, n, random).record());
        for position in n + 1..=256 {
            let other = random.between(1, n);
            tally.expect_both_ways(&given, &groups_of(&[position], &[other]), OUTSIDE);
            tally.expect_both_ways(&given, &groups_of(&[1, position], &[n]), OUTSIDE);
            cases += 4;
        }
    });
    tally.expect_refused([Refusal::PositionOutside], [cases]);
    tally.finish(cases);
}

/// The position n is inside, and the next one is not; of all counts of rooms.
#[test]
fn the_last_position_and_the_next_one() {
    let mut tally = Tally::new("positions n and n + 1");
    for n in 2..=255u8 {
        let given = GivenRecord::new(Walked::rising(n).record());
        let last = usize::from(n);
        let left = Ok(Some(Side::Left));
        tally.expect_both_ways(&given, &groups_of(&[last - 1], &[last]), left);
        tally.expect_both_ways(&given, &groups_of(&[last], &[last + 1]), OUTSIDE);
        tally.expect_both_ways(&given, &[from_to(1, last - 1), group_of(&[last])], left);
        let all = [from_to(1, last - 1), from_to(last, 256)];
        tally.expect_both_ways(&given, &all, OUTSIDE);
    }
    tally.finish(254 * 8);
}

/// A plan of 255 rooms has every position but 256.
#[test]
fn position_256() {
    let mut tally = Tally::new("position 256");
    let given = GivenRecord::new(Walked::falling(255).record());
    for position in 1..=255 {
        let groups = groups_of(&[position, 256], &[position % 255 + 1]);
        tally.expect_both_ways(&given, &groups, OUTSIDE);
    }
    for groups in [[[255; 32]; 2], [[255; 32], [0; 32]]] {
        tally.expect_both_ways(&given, &groups, OUTSIDE);
    }
    // Without that bit they are all in both.
    let mut all = [255; 32];
    all[31] = 0x7f;
    let shared = Err(Refusal::PositionsEqual);
    tally.expect_both_ways(&given, &[all; 2], shared);
    tally.finish(2 * 258);
}
