//! Every two groups of every small plan: empty ones, with positions in both, and
//! with positions outside.

use crate::help::Answers;
use compare::{GivenRecord, Tally};
use reference::cases::groups::every_group;
use reference::cases::{baxter_lists, BAXTER_NUMBERS};
use reference::{Group, Refusal};

/// Every plan of `n` rooms, as its record.
fn every_plan(n: u8) -> Vec<GivenRecord> {
    let lists = baxter_lists(n);
    let record = |labels: &Vec<u8>| {
        let mut record = [0; nenturxo::RECORD_CAPACITY];
        let length = reference::labels_in(labels, &mut record).expect("a Baxter list");
        GivenRecord::new(&record[..length])
    };
    lists.iter().map(record).collect()
}

/// How many of all pairs of groups of `n` positions, empty ones too, are refused
/// with 27, how many with 17, and how many not.
fn shares(n: u32) -> [usize; 3] {
    let all = 4usize.pow(n);
    let empty = 2 * 2usize.pow(n) - 1;
    // Each position is in one of the groups or in none.
    let apart = 3usize.pow(n) - empty;
    [empty, all - empty - apart, apart]
}

/// Compares every plan of `n` rooms with all pairs of these groups.
fn compare_all(tally: &mut Tally, n: u8, groups: &[Group]) -> Answers {
    let mut answers = Answers::default();
    for given in every_plan(n) {
        for &first in groups {
            for &second in groups {
                if let Ok(side) = tally.groups(&given, &[first, second]) {
                    answers.count(side);
                }
            }
        }
    }
    answers
}

#[test]
fn every_two_groups_of_every_plan_of_up_to_5_rooms() {
    let mut tally = Tally::new("groups of plans of up to 5 rooms");
    let mut expected = [0; 3];
    for (n, plans) in (1..=5u8).zip(BAXTER_NUMBERS) {
        let groups: Vec<Group> = every_group(n.into()).collect();
        let answers = compare_all(&mut tally, n, &groups);
        if n == 5 {
            answers.expect_often(1_000);
        }
        for (count, share) in expected.iter_mut().zip(shares(n.into())) {
            *count += plans * share;
        }
    }
    let [empty, shared, accepted] = expected;
    assert_eq!(tally.accepted(), accepted);
    let refusals = [Refusal::EmptyGroup, Refusal::PositionsEqual];
    tally.expect_refused(refusals, [empty, shared]);
    tally.finish(empty + shared + accepted);
}

/// Every group of the positions up to n + 1, which is at most 6, and of 255 and
/// 256.
fn with_positions_outside(n: u8) -> Vec<Group> {
    let near = every_group(u32::from(n) + 1);
    let with_far = near.flat_map(|group| {
        [0x00, 0x40, 0x80, 0xc0].map(|far| {
            let mut group = group;
            group[31] = far;
            group
        })
    });
    with_far.collect()
}

#[test]
fn every_two_groups_with_positions_outside_for_every_plan_of_up_to_4_rooms() {
    let mut tally = Tally::new("groups with positions outside");
    let (mut all, mut expected) = (0, [0; 3]);
    for (n, plans) in (1..=4u8).zip(BAXTER_NUMBERS) {
        let groups = with_positions_outside(n);
        compare_all(&mut tally, n, &groups);
        all += plans * groups.len().pow(2);
        for (count, share) in expected.iter_mut().zip(shares(n.into())) {
            *count += plans * share;
        }
    }
    let [empty, shared, accepted] = expected;
    assert_eq!(tally.accepted(), accepted);
    let [.., of_outside, of_empty, of_shared] = Refusal::OF_GROUPS;
    let outside = all - empty - shared - accepted;
    tally.expect_refused([of_outside, of_empty, of_shared], [outside, empty, shared]);
    tally.finish(all);
}
