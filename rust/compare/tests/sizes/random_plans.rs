//! Random plans of up to 255 rooms with sizes of all kinds, and placings of them.

use crate::help::{furthest_ends, is_no_lower};
use compare::Tally;
use reference::cases::sizes::{Placing, SizedRecord};
use reference::cases::walk::{list_in_turn, some_count};
use reference::cases::Random;
use reference::Refusal;

#[test]
fn corners_of_random_plans() {
    const PLANS: usize = 2_000;
    let name = "corners of random plans";
    Tally::in_threes(name, 551, PLANS, |tally, random, round| {
        let plan = list_in_turn(some_count(random), round, random);
        tally.expect_corners(&SizedRecord::some(&plan, random));
    });
}

#[test]
fn corners_of_plans_of_every_count() {
    const PLANS: usize = 4;
    let name = "corners of plans of 1, 2, .. 255 rooms";
    Tally::in_threes(name, 552, 255 * PLANS, |tally, random, round| {
        let plan = list_in_turn(1 + round / PLANS, round, random);
        tally.expect_corners(&SizedRecord::some(&plan, random));
    });
}

#[test]
fn corners_of_plans_of_255_rooms() {
    const PLANS: usize = 300;
    let name = "corners of plans of 255 rooms";
    Tally::in_threes(name, 553, PLANS, |tally, random, round| {
        let plan = list_in_turn(255, round, random);
        tally.expect_corners(&SizedRecord::some(&plan, random));
    });
}

#[test]
fn all_sizes_the_least_and_all_the_greatest() {
    const PLANS: usize = 300;
    let name = "plans with all sizes 1, and with all 65,535";
    let tally = Tally::of_rounds(name, 554, 0..PLANS, |tally, random, round| {
        let plan = list_in_turn(some_count(random), round, random);
        let least = tally.expect_corners(&SizedRecord::equal(&plan, 1));
        let sized = SizedRecord::equal(&plan, 65_535);
        let greatest = tally.expect_corners(&sized);
        // All sums are so many times as large.
        let times = |starts: &[u32]| starts.iter().map(|start| start * 65_535).collect();
        let (x, y) = (times(&least.x), times(&least.y));
        assert_eq!(greatest, Placing { x, y }, "{sized:?}");
        tally.expect_needed(&sized, furthest_ends(&sized, &greatest));
    });
    tally.finish(PLANS * (3 + 3 + 5));
}

/// Compares placings that honour the relations, which are no lower than the
/// lowest one, and the same with a relation broken.
fn compare_placings(tally: &mut Tally, sized: &SizedRecord, random: &mut Random) {
    let n = sized.widths.len();
    let lowest = tally.expect_corners(sized);
    tally.expect_placing(sized, &lowest, Ok(()));
    for mut placing in [Placing::staircase(sized), Placing::some(sized, random)] {
        tally.expect_placing(sized, &placing, Ok(()));
        assert!(is_no_lower(&placing, &lowest), "{sized:?}, {placing:?}");
        if n > 1 {
            placing.break_a_relation(sized, random);
            tally.expect_placing(sized, &placing, Err(Refusal::RelationBroken));
        }
    }
}

#[test]
fn placings_of_random_plans() {
    const PLANS: usize = 1_500;
    let name = "placings of random plans";
    let tally = Tally::of_rounds(name, 555, 0..PLANS, |tally, random, round| {
        let plan = list_in_turn(some_count(random), round, random);
        compare_placings(tally, &SizedRecord::some(&plan, random), random);
    });
    tally.expect_often(PLANS, &[Refusal::RelationBroken]);
    tally.finish(PLANS * 6);
}

#[test]
fn placings_of_plans_of_every_count() {
    let name = "placings of plans of 1, 2, .. 255 rooms";
    let tally = Tally::of_rounds(name, 556, 1..=255, |tally, random, n| {
        let plan = list_in_turn(n, n, random);
        compare_placings(tally, &SizedRecord::some(&plan, random), random);
    });
    tally.expect_refused([Refusal::RelationBroken], [2 * 254]);
    tally.finish(6 + 254 * 8);
}

/// Any numbers as corners: small plans are at times honoured, large ones not.
#[test]
fn any_corners() {
    const PLACINGS: usize = 20_000;
    let name = "any corners";
    let tally = Tally::of_rounds(name, 557, 0..PLACINGS, |tally, random, round| {
        let n = [
            random.between(1, 4),
            random.between(1, 9),
            some_count(random),
        ][round % 3];
        let plan = list_in_turn(n, round, random);
        let sized = SizedRecord::some(&plan, random);
        let end = random.pick(&[4, 1 << 18, 1 << 32]);
        let mut corners = || (0..n).map(|_| random.below(end) as u32).collect();
        let (x, y) = (corners(), corners());
        let _ = tally.placing_in(&sized, &Placing { x, y });
    });
    tally.expect_often(PLACINGS / 4, &[Refusal::RelationBroken]);
    assert!(tally.accepted() > PLACINGS / 20, "{}", tally.accepted());
    tally.finish(PLACINGS);
}

/// The corners of one plan for another one of as many rooms: what honours the
/// relations of both is rare.
#[test]
fn corners_of_another_plan() {
    const PLANS: usize = 2_000;
    let name = "corners of another plan";
    let tally = Tally::of_rounds(name, 558, 0..PLANS, |tally, random, round| {
        let n = [random.between(2, 5), some_count(random).max(2)][round % 2];
        let plan = list_in_turn(n, round / 2, random);
        let other = list_in_turn(n, round / 2 + 1, random);
        let sized = SizedRecord::some(&plan, random);
        let same_sizes = SizedRecord::new(other.record(), &sized.widths[..], &sized.heights[..]);
        let corners = Placing::some(&same_sizes, random);
        tally.expect_placing(&same_sizes, &corners, Ok(()));
        let _ = tally.placing_in(&sized, &corners);
    });
    tally.expect_often(PLANS / 2, &[Refusal::RelationBroken]);
    tally.finish(2 * PLANS);
}
