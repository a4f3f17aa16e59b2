//! Groups of many shapes in plans of up to 255 rooms.

use crate::help::Answers;
use compare::{GivenRecord, Tally};
use reference::cases::groups::{parted_groups, related_groups, single_rooms, some_groups};
use reference::cases::slicing::SlicingPlan;
use reference::cases::walk::{list_in_turn, some_count};
use reference::{positions_in, Side};

/// Any groups, those of intervals of positions and of labels, of rooms on one
/// side of a room, and single rooms, both ways round.
#[test]
fn groups_of_every_shape() {
    const PLANS: usize = 2_500;
    const PAIRS: usize = 12;
    let name = "groups of random plans";
    let mut answers = Answers::default();
    let tally = Tally::of_rounds(name, 651, 0..PLANS, |tally, random, round| {
        let n = some_count(random).max(2);
        let given = GivenRecord::new(list_in_turn(n, round, random).record());
        let plan = given.answer.as_ref().expect("walks are accepted");
        for _ in 0..PAIRS {
            let [first, second] = some_groups(plan, random);
            let there = tally.groups(&given, &[first, second]);
            let back = tally.groups(&given, &[second, first]);
            let there = there.expect("groups of rooms");
            assert_eq!(back, Ok(there.map(Side::opposite)), "{given}");
            answers.count(there);
        }
    });
    answers.expect_often(PLANS * PAIRS / 12);
    assert_eq!(tally.accepted(), 2 * PLANS * PAIRS);
    tally.finish(2 * PLANS * PAIRS);
}

/// Of slicing plans, which have long rows and piles in each other.
#[test]
fn groups_of_slicing_plans() {
    const PLANS: usize = 600;
    const PAIRS: usize = 12;
    let name = "groups of slicing plans";
    let mut answers = Answers::default();
    let tally = Tally::of_rounds(name, 652, 0..PLANS, |tally, random, round| {
        let n = some_count(random).max(2);
        let given = GivenRecord::new(SlicingPlan::in_turn(n, round, random).record());
        let plan = given.answer.as_ref().expect("plans are accepted");
        for _ in 0..PAIRS {
            let groups = some_groups(plan, random);
            answers.count(tally.groups(&given, &groups).expect("groups of rooms"));
        }
    });
    answers.expect_often(PLANS * PAIRS / 12);
    tally.finish(PLANS * PAIRS);
}

/// Groups that get a side and lose it by one room: each room beside the two is
/// put into either group.
#[test]
fn related_groups_with_every_other_room() {
    const PLANS: usize = 120;
    let name = "related groups and one more room";
    let mut answers = Answers::default();
    let tally = Tally::of_rounds(name, 653, 0..PLANS, |tally, random, round| {
        let n = random.between(3, 60);
        let given = GivenRecord::new(list_in_turn(n, round, random).record());
        let plan = given.answer.as_ref().expect("walks are accepted");
        let groups = related_groups(plan, random);
        let side = tally.groups(&given, &groups).expect("groups of rooms");
        assert!(side.is_some(), "{given}");
        let taken = groups.each_ref().map(positions_in).concat();
        for position in (1..=n).filter(|position| !taken.contains(position)) {
            for which in [0, 1] {
                let mut groups = groups;
                groups[which][(position - 1) / 8] |= 1 << ((position - 1) % 8);
                let answer = tally.groups(&given, &groups).expect("groups of rooms");
                // No room more gives another side.
                assert!(answer.is_none() || answer == side, "{given}");
                answers.count(answer);
            }
        }
    });
    answers.expect_often(100);
    tally.finish(PLANS);
}

/// Plans of each count of rooms.
#[test]
fn groups_of_plans_of_every_count() {
    let name = "groups of plans of 2 to 255 rooms";
    let mut answers = Answers::default();
    let tally = Tally::of_rounds(name, 654, 2..=255, |tally, random, n| {
        let given = GivenRecord::new(list_in_turn(n, n, random).record());
        let plan = given.answer.as_ref().expect("walks are accepted");
        for _ in 0..4 {
            for groups in [
                related_groups(plan, random),
                parted_groups(n, random),
                single_rooms(n, random),
                some_groups(plan, random),
            ] {
                answers.count(tally.groups(&given, &groups).expect("groups of rooms"));
            }
        }
    });
    answers.expect_often(200);
    tally.finish(254 * 16);
}
