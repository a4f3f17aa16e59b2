//! Floorplans of any shape: how two rooms stand to each other, directly or
//! through others, and whether they touch is read off the segments of the plan
//! as it stands, and must be what is answered for its record, which knows
//! nothing of where the segments slid.

use crate::help::{share_an_edge, shown, Kind};
use compare::floorplan::some_box;
use compare::{report, AskedPlan, Floorplan, Tally};
use reference::cases::walk::list_in_turn;
use reference::cases::{baxter_lists, baxter_lists_up_to, Random, BAXTER_NUMBERS};
use reference::{numbering_of, Relation, Room, Side};
use std::collections::{BTreeMap, BTreeSet};

/// All pairs of two different numbers below `n`, in both orders.
fn pairs(n: usize) -> impl Iterator<Item = (usize, usize)> {
    (0..n).flat_map(move |a| (0..n).filter(move |&b| b != a).map(move |b| (a, b)))
}

/// All pairs of two different rooms in every plan of up to 6 rooms.
fn pairs_of_up_to_6_rooms() -> usize {
    let pairs = |n: usize| BAXTER_NUMBERS[n - 1] * n * (n - 1);
    (1..=6).map(pairs).sum()
}

/// How the rooms of every two positions stand to each other and whether they
/// touch, by the segments of the plan.
fn standings(plan: &AskedPlan) -> BTreeMap<[u8; 2], (Relation, bool)> {
    let positions = |a: usize, b: usize| [plan.positions[a], plan.positions[b]];
    let all = pairs(plan.rooms.len());
    all.map(|(a, b)| (positions(a, b), plan.standing(a, b)))
        .collect()
}

/// The pairs of positions whose rooms have a piece of edge in common.
fn with_a_shared_edge(plan: &AskedPlan) -> BTreeSet<[u8; 2]> {
    let share = |&(a, b): &(usize, usize)| share_an_edge(plan.rooms[a], plan.rooms[b]);
    let sharing = pairs(plan.rooms.len()).filter(share);
    sharing
        .map(|(a, b)| [plan.positions[a], plan.positions[b]])
        .collect()
}

/// Asks for all pairs of rooms.
fn ask_every_pair(tally: &mut Tally, plan: &AskedPlan) {
    for (first, second) in pairs(plan.rooms.len()) {
        tally.question_of_rooms(plan, first, second);
    }
}

/// Asks for two rooms, and holds the answer to the chains of direct steps: one
/// leads from the first to the second on the side that is answered, and none on
/// another side; if the relation is direct it is one step, and else there is no
/// one step and it takes two or more. Gives the least number of steps.
fn ask_for_chains(tally: &mut Tally, plan: &AskedPlan, first: usize, second: usize) -> usize {
    let (relation, _) = tally.question_of_rooms(plan, first, second);
    let rooms = &plan.rooms;
    let mut steps = Vec::new();
    for side in Side::ALL {
        let is_answered = side == relation.side;
        let one_step = plan.contacts.directly(side, first, second);
        assert_eq!(one_step, is_answered && relation.direct, "{rooms:?}");
        let least = plan.chains.steps(side, first, second);
        assert_eq!(least.is_some(), is_answered, "{rooms:?}");
        steps.extend(least);
    }
    assert_eq!(steps[0] == 1, relation.direct, "{rooms:?}");
    usize::from(steps[0])
}

/// The kind of two rooms of a plan.
fn kind_of(plan: &AskedPlan, first: usize, second: usize) -> Kind {
    let rooms = [first, second].map(|place| plan.rooms[place]);
    Kind::of(rooms, plan.standing(first, second))
}

/// Another room than the first one, which with it is a pair of this kind, or
/// any if there is none.
fn some_other(plan: &AskedPlan, first: usize, kind: Kind, random: &mut Random) -> usize {
    let others = (0..plan.rooms.len()).filter(|&other| other != first);
    let others: Vec<usize> = others.collect();
    let sought = others.iter().copied();
    let sought: Vec<usize> = sought
        .filter(|&other| kind_of(plan, first, other) == kind)
        .collect();
    random.pick(if sought.is_empty() { &others } else { &sought })
}

/// A plan of `n` rooms, moved about: in one round nested, in the next a
/// drawing.
fn some_plan(n: usize, round: usize, random: &mut Random) -> Floorplan {
    let mut plan = match round % 2 {
        0 => Floorplan::nested(n, some_box(random), random),
        _ => Floorplan::drawn(&list_in_turn(n, round / 2, random).labels),
    };
    plan.move_about(2 * n, random);
    plan
}

/// Whether a segment of a drawing has two or more rooms on both sides. Only
/// then can segments slide so that other rooms share an edge.
fn has_two_on_both_sides(drawn: &[Room]) -> bool {
    let two = |side: fn(&Room) -> u16, line: usize| {
        let held = drawn.iter().filter(|room| usize::from(side(room)) == line);
        held.count() >= 2
    };
    (1..drawn.len()).any(|line| {
        two(|room| room.right, line) && two(|room| room.left, line)
            || two(|room| room.top, line) && two(|room| room.bottom, line)
    })
}

#[test]
fn every_pair_of_every_plan_of_up_to_6_rooms() {
    const ROUNDS: usize = 6;
    let name = "pairs of plans of up to 6 rooms, moved";
    let (mut plans, mut can_differ, mut differ) = (0, 0, 0);
    let lists = (1..=6).flat_map(baxter_lists);
    let tally = Tally::of_rounds(name, 121, lists, |tally, random, labels| {
        let mut plan = Floorplan::drawn(&labels);
        let drawn = AskedPlan::new(&plan);
        let can = has_two_on_both_sides(&drawn.rooms);
        for _ in 0..ROUNDS {
            plan.move_about(18, random);
            let moved = AskedPlan::new(&plan);
            assert_eq!(numbering_of(&moved.rooms), Ok(plan.numbering()));
            ask_every_pair(tally, &moved);

            assert_eq!(standings(&moved), standings(&drawn), "{:?}", moved.rooms);
            let does = with_a_shared_edge(&moved) != with_a_shared_edge(&drawn);
            assert!(can || !does, "{:?}", moved.rooms);
            plans += 1;
            can_differ += usize::from(can);
            differ += usize::from(does);
        }
    });
    report(format_args!(
        "of {plans} plans {can_differ} can have other shared edges than their drawings, {differ} have"
    ));
    assert_eq!(plans, ROUNDS * baxter_lists_up_to(6));
    // These would not do if an answer went by shared edges.
    assert!(can_differ > plans / 4 && differ > can_differ / 3);
    let cases = ROUNDS * pairs_of_up_to_6_rooms();
    assert_eq!(tally.accepted(), cases);
    tally.finish(cases);
}

#[test]
fn every_pair_of_every_plan_of_up_to_6_rooms_against_all_chains() {
    const ROUNDS: usize = 4;
    let name = "pairs of plans of up to 6 rooms, moved, by their chains";
    let mut of_steps = [0; 6];
    let mut of_kind = [0; Kind::ALL.len()];
    let lists = (1..=6).flat_map(baxter_lists);
    let tally = Tally::of_rounds(name, 124, lists, |tally, random, labels| {
        let mut plan = Floorplan::drawn(&labels);
        for _ in 0..ROUNDS {
            plan.move_about(18, random);
            let moved = AskedPlan::new(&plan);
            for (first, second) in pairs(labels.len()) {
                of_steps[ask_for_chains(tally, &moved, first, second)] += 1;
                of_kind[kind_of(&moved, first, second) as usize] += 1;
            }
        }
    });
    report(shown(of_kind));
    report(format_args!("by their steps, from 0 on: {of_steps:?}"));
    let cases = ROUNDS * pairs_of_up_to_6_rooms();
    assert_eq!(of_steps.iter().sum::<usize>(), cases);
    assert_eq!(of_steps[1], of_kind[0] + of_kind[1]);
    // Only in the row and the pile of 6 it takes 5 steps, there and back.
    assert_eq!((of_steps[0], of_steps[5]), (0, ROUNDS * 2 * 2));
    assert!(of_steps[1..5].iter().all(|&count| count > 50 * ROUNDS));
    assert!(of_kind.iter().all(|&count| count > 50 * ROUNDS));
    tally.finish(cases);
}

#[test]
fn pairs_of_every_kind_in_random_plans_of_up_to_255_rooms() {
    const PLANS: usize = 600;
    const PAIRS: usize = 40;
    let name = "pairs of random plans of up to 255 rooms, moved";
    let mut of_kind = [0; Kind::ALL.len()];
    let mut most_steps = 0;
    let tally = Tally::of_rounds(name, 122, 0..PLANS, |tally, random, round| {
        let n = random.between(2, 255);
        let plan = AskedPlan::new(&some_plan(n, round, random));
        for pair in 0..PAIRS {
            let first = random.below(n);
            // Of all pairs few touch, so each kind is sought in turn.
            let kind = Kind::ALL[pair % Kind::ALL.len()];
            let second = some_other(&plan, first, kind, random);
            let steps = ask_for_chains(tally, &plan, first, second);
            of_kind[kind_of(&plan, first, second) as usize] += 1;
            most_steps = most_steps.max(steps);
        }
    });
    report(shown(of_kind));
    report(format_args!("through at most {most_steps} steps"));
    assert!(of_kind.iter().all(|&count| count > PLANS * PAIRS / 10));
    assert!(most_steps > 20);
    assert_eq!(tally.accepted(), PLANS * PAIRS);
    tally.finish(PLANS * PAIRS);
}

#[test]
fn every_pair_of_some_plans_of_255_rooms() {
    const PLANS: usize = 4;
    let name = "all pairs of plans of 255 rooms, moved";
    let tally = Tally::of_rounds(name, 123, 0..PLANS, |tally, random, round| {
        let mut plan = some_plan(255, round, random);
        let asked = AskedPlan::new(&plan);
        ask_every_pair(tally, &asked);

        plan.move_about(255, random);
        let moved = AskedPlan::new(&plan);
        let same = standings(&moved) == standings(&asked);
        assert!(same, "a relation or a touch is another in {}", moved.record);
        let shared = [&asked, &moved].map(with_a_shared_edge);
        assert!(shared[0] != shared[1], "nothing slid in {}", moved.record);
    });
    assert_eq!(tally.accepted(), PLANS * 255 * 254);
    tally.finish(PLANS * 255 * 254);
}
