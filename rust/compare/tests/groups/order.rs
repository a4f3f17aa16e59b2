//! Two causes at once: each refusal comes before those that are named after it.
//! The order is 9, 10, 11, 14, 12, 13, then 16, 27, 17.

use crate::help::groups_of;
use compare::records::refused_records;
use compare::{GivenRecord, Groups, Tally};
use reference::cases::walk::Walked;
use reference::Refusal;

/// How many [`refused_records`] there are.
const RECORDS: usize = 6 + 13;

/// Groups with each cause and with two of them, for a plan of `n` rooms, and the
/// one that comes first.
///
/// No two groups have both 27 and 17: no position is in an empty one.
fn causes(n: usize) -> Vec<(Groups, Refusal)> {
    let [outside, empty, shared] = [
        Refusal::PositionOutside,
        Refusal::EmptyGroup,
        Refusal::PositionsEqual,
    ];
    let far = [n + 1, 256];
    let with_far = far.into_iter().flat_map(|far| {
        [
            (groups_of(&[far], &[1]), outside),
            // and 27
            (groups_of(&[far], &[]), outside),
            (groups_of(&[1, far], &[]), outside),
            // and 17, for a position outside or for another one
            (groups_of(&[far], &[far]), outside),
            (groups_of(&[1, far], &[1]), outside),
            (groups_of(&[1, far], &[1, far]), outside),
        ]
    });
    let inside = [
        (groups_of(&[], &[]), empty),
        (groups_of(&[1], &[]), empty),
        (groups_of(&[1], &[1]), shared),
        (groups_of(&[1, n], &[n]), shared),
    ];
    with_far.chain(inside).collect()
}

/// How many there are.
const CAUSES: usize = 2 * 6 + 4;

#[test]
fn a_record_comes_before_the_groups() {
    let mut tally = Tally::new("9 to 14, and 16, 27 or 17");
    for (record, refusal) in refused_records() {
        let given = GivenRecord::new(record);
        let kind = given.input.first().copied().unwrap_or(0);
        let n = usize::from(kind).max(1);
        for (groups, _) in causes(n) {
            tally.expect_both_ways(&given, &groups, Err(refusal));
        }
        tally.expect_both_ways(&given, &groups_of(&[1], &[2]), Err(refusal));
    }
    assert_eq!(tally.accepted(), 0);
    let [.., outside, empty, shared] = Refusal::OF_GROUPS;
    tally.expect_refused([outside, empty, shared], [0; 3]);
    tally.finish(RECORDS * (CAUSES + 1) * 2);
}

#[test]
fn positions_outside_come_before_empty_groups_and_shared_positions() {
    const COUNTS: [u8; 10] = [1, 2, 3, 8, 9, 63, 64, 65, 254, 255];
    let mut tally = Tally::new("16, 27 and 17");
    for count in COUNTS {
        for walked in [Walked::rising(count), Walked::falling(count)] {
            let given = GivenRecord::new(walked.record());
            for (groups, refusal) in causes(count.into()) {
                tally.expect_both_ways(&given, &groups, Err(refusal));
            }
        }
    }
    assert_eq!(tally.accepted(), 0);
    tally.finish(COUNTS.len() * 2 * CAUSES * 2);
}

/// Each of the 32 bytes alone makes a group that is not empty, and a position in
/// both.
#[test]
fn every_byte_of_a_group_counts() {
    let mut tally = Tally::new("27 and 17, by every byte");
    let given = GivenRecord::new(Walked::rising(255).record());
    for position in 1..=255 {
        let one = groups_of(&[position], &[]);
        tally.expect_both_ways(&given, &one, Err(Refusal::EmptyGroup));
        let other = position % 255 + 1;
        let shared = groups_of(&[position, other], &[position]);
        tally.expect_both_ways(&given, &shared, Err(Refusal::PositionsEqual));
    }
    tally.expect_refused([Refusal::EmptyGroup, Refusal::PositionsEqual], [2 * 255; 2]);
    tally.finish(4 * 255);
}
