//! Random plans of up to 255 rooms, slicing ones and others.

use compare::{GivenTree, Tally};
use reference::cases::slicing::{SlicingPlan, PINWHEELS};
use reference::cases::walk::{list_in_turn, some_count};
use reference::Refusal;

/// Compares a plan with the tree that it was made from.
fn expect_tree(tally: &mut Tally, plan: &SlicingPlan) {
    tally.expect_tree(&plan.record(), &plan.tree.bytes());
}

#[test]
fn slicing_plans_have_the_trees_that_they_are_made_from() {
    const PLANS: usize = 2_000;
    let name = "random slicing plans";
    Tally::in_threes(name, 311, PLANS, |tally, random, round| {
        let n = some_count(random);
        expect_tree(tally, &SlicingPlan::in_turn(n, round, random));
    });
}

#[test]
fn slicing_plans_of_every_count() {
    const PLANS: usize = 4;
    let name = "slicing plans of 1, 2, .. 255 rooms";
    Tally::in_threes(name, 312, 255 * PLANS, |tally, random, round| {
        let n = 1 + round / PLANS;
        expect_tree(tally, &SlicingPlan::in_turn(n, round, random));
    });
}

#[test]
fn slicing_plans_of_255_rooms() {
    const PLANS: usize = 400;
    let name = "slicing plans of 255 rooms";
    Tally::in_threes(name, 313, PLANS, |tally, random, round| {
        expect_tree(tally, &SlicingPlan::in_turn(255, round, random));
    });
}

#[test]
fn one_pinwheel_makes_a_plan_not_slicing() {
    const PLANS: usize = 1_000;
    let name = "slicing plans with a pinwheel in them";
    let tally = Tally::of_rounds(name, 314, 0..PLANS, |tally, random, round| {
        // As many rooms as can be, or any number.
        let n = [251, some_count(random).min(251)][round % 2];
        let plan = SlicingPlan::in_turn(n, round / 2, random);
        let walked = plan.with_a_pinwheel(random.below(n), random.pick(&PINWHEELS));
        tally.expect_refused_tree(&walked.record(), Refusal::NotSlicing);
    });
    tally.expect_refused([Refusal::NotSlicing], [3 * PLANS]);
    tally.finish(3 * PLANS);
}

/// Small plans of all walks are mostly slicing, and large ones are not.
#[test]
fn plans_of_random_walks() {
    const PLANS: usize = 6_000;
    let name = "trees of random walks";
    let tally = Tally::of_rounds(name, 315, 0..PLANS, |tally, random, round| {
        let n = [1 + round % 8, random.between(5, 20), some_count(random)][round % 3];
        let given = GivenTree::new(list_in_turn(n, round, random).record());
        let _ = tally.tree(&given, 3 * n - 2);
    });
    tally.expect_often(PLANS / 10, &[Refusal::NotSlicing]);
    assert!(tally.accepted() > PLANS / 10, "{}", tally.accepted());
    assert_eq!(tally.accepted() + tally.refused(Refusal::NotSlicing), PLANS);
    tally.finish(PLANS);
}
