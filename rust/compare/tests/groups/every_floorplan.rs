//! Floorplans of any shape: how two groups of rooms stand to each other is read
//! off the chains of direct steps along the segments of the plan as it stands,
//! and must be what is answered for its record, which knows nothing of where the
//! segments slid.

use crate::help::Answers;
use compare::floorplan::some_box;
use compare::{AskedPlan, Floorplan, Groups, Tally};
use reference::cases::groups::{every_group, some_groups};
use reference::cases::walk::list_in_turn;
use reference::cases::{baxter_lists, baxter_lists_up_to};

/// All pairs of groups of `n` positions that are not empty and have no position
/// in both.
fn all_apart(n: usize) -> impl Iterator<Item = Groups> {
    let all = move || every_group(n as u32).skip(1);
    let pairs = all().flat_map(move |first| all().map(move |second| [first, second]));
    pairs.filter(|[first, second]| first[0] & second[0] == 0)
}

#[test]
fn every_two_groups_of_every_plan_of_up_to_5_rooms_moved() {
    const ROUNDS: usize = 3;
    let name = "groups of plans of up to 5 rooms, moved";
    let mut answers = Answers::default();
    let mut plans = 0;
    let lists = (2..=5).flat_map(baxter_lists);
    let tally = Tally::of_rounds(name, 641, lists, |tally, random, labels| {
        let mut plan = Floorplan::drawn(&labels);
        plans += 1;
        for _ in 0..ROUNDS {
            plan.move_about(15, random);
            let moved = AskedPlan::new(&plan);
            for groups in all_apart(labels.len()) {
                answers.count(tally.groups_of_rooms(&moved, &groups));
            }
        }
    });
    assert_eq!(plans, baxter_lists_up_to(5) - 1);
    answers.expect_often(3_000);
    // Of the plans of n rooms each has 3^n ways less those with an empty group.
    let ways = |n: u32| 3usize.pow(n) - 2 * 2usize.pow(n) + 1;
    let cases = ROUNDS * (2 * ways(2) + 6 * ways(3) + 22 * ways(4) + 92 * ways(5));
    assert_eq!(tally.accepted(), cases);
    tally.finish(cases);
}

#[test]
fn groups_of_random_plans_of_up_to_255_rooms_moved() {
    const PLANS: usize = 300;
    const PAIRS: usize = 20;
    let name = "groups of random plans of up to 255 rooms, moved";
    let mut answers = Answers::default();
    let tally = Tally::of_rounds(name, 642, 0..PLANS, |tally, random, round| {
        let n = random.between(2, 255);
        let mut plan = match round % 2 {
            0 => Floorplan::nested(n, some_box(random), random),
            _ => Floorplan::drawn(&list_in_turn(n, round / 2, random).labels),
        };
        plan.move_about(2 * n, random);
        let plan = AskedPlan::new(&plan);
        let questions = plan.record.answer.as_ref().expect("a plan's record");
        for _ in 0..PAIRS {
            let groups = some_groups(questions.plan(), random);
            answers.count(tally.groups_of_rooms(&plan, &groups));
        }
    });
    answers.expect_often(PLANS * PAIRS / 12);
    assert_eq!(tally.accepted(), PLANS * PAIRS);
    tally.finish(PLANS * PAIRS);
}
