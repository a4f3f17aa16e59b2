//! Answers that can be read off the sheet and the request.

use crate::help::{from_to, groups_of};
use compare::{GivenRecord, Tally};
use reference::cases::asked;
use reference::cases::groups::group_of;
use reference::cases::walk::Walked;
use reference::cases::worked::LISTED;
use reference::Side;

/// The sheet's pinwheel, 4 1 3 5 2: groups and how the first one stands.
const PINWHEEL: [(&[usize], &[usize], Option<Side>); 12] = [
    // 2 and 3 are left of 4, directly or not, and 1 too, directly
    (&[2, 3], &[4], Some(Side::Left)),
    (&[1, 2, 3], &[4], Some(Side::Left)),
    (&[2], &[3, 4, 5], Some(Side::Left)),
    // 1 is below 2, 3 and 5, the last one not directly
    (&[1], &[2, 3, 5], Some(Side::Below)),
    (&[1, 3, 4], &[5], Some(Side::Below)),
    (&[1], &[2, 3], Some(Side::Below)),
    // 4 is right of 1, and so not above it as 2 is
    (&[1], &[2, 4], None),
    (&[2, 3], &[4, 5], None),
    // the room in the middle has one on each side
    (&[3], &[1, 2, 4, 5], None),
    (&[3], &[1, 5], None),
    // positions in turn
    (&[1, 4], &[2, 5], None),
    (&[1, 5], &[2, 4], None),
];

#[test]
fn groups_of_a_pinwheel() {
    let mut tally = Tally::new("groups of the pinwheel");
    let given = GivenRecord::new(LISTED);
    for (first, second, side) in PINWHEEL {
        tally.expect_both_ways(&given, &groups_of(first, second), Ok(side));
    }
    tally.finish(2 * PINWHEEL.len());
}

#[test]
fn every_pair_of_the_worked_plans_as_groups() {
    let mut tally = Tally::new("pairs of worked plans as groups");
    for plan in asked::PLANS {
        let given = GivenRecord::new(plan.record);
        for &(pair, standing) in plan.pairs {
            let groups = pair.map(|position| group_of(&[position.into()]));
            tally.expect_both_ways(&given, &groups, Ok(Some(standing.side)));
        }
    }
    let pairs = 2 * 3 + 5 * 6 + 6 * 10 + 2 * 15 + 21;
    assert_eq!(tally.accepted(), 2 * pairs);
    tally.finish(2 * pairs);
}

/// The rooms of a row are each left of all that follow.
#[test]
fn every_two_intervals_of_a_row_and_a_pile() {
    const N: usize = 12;
    let mut tally = Tally::new("intervals of a row and a pile");
    for (walked, side) in [
        (Walked::rising(N as u8), Side::Left),
        (Walked::falling(N as u8), Side::Below),
    ] {
        let given = GivenRecord::new(walked.record());
        for start in 1..N {
            for end in start..N {
                for from in end + 1..=N {
                    for to in from..=N {
                        let groups = [from_to(start, end), from_to(from, to)];
                        tally.expect_both_ways(&given, &groups, Ok(Some(side)));
                    }
                }
            }
        }
    }
    // As many as there are ways to choose 4 of 13 ends.
    tally.finish(2 * 2 * 715);
}
