//! Inputs of "Groups".

use crate::records::damaged;
use crate::rooms::some_plan;
use crate::size::{by_definitions, some_walk};
use compare::{AskedPlan, GivenRecord, Groups, Tally};
use reference::cases::groups::{group_of, some_groups};
use reference::cases::Random;
use reference::{positions_in, Group, Plan, Side};
use std::sync::atomic::{AtomicUsize, Ordering};

/// Pairs of groups for each plan: the first one as it is, and others of which
/// most have faults.
const CASES: usize = 5;

/// Plans of so many rooms are always held to the definitions.
const SHORT: usize = 12;

/// How often each answer came up: the four sides, and mixed.
static ANSWERS: [AtomicUsize; 5] = [const { AtomicUsize::new(0) }; 5];

/// Compares some groups of a plan's rooms, and the same with faults. In some
/// turns asks as often for rooms of a floorplan.
pub fn compare_some(tally: &mut Tally, random: &mut Random) {
    if random.below(32) == 0 {
        let plan = some_plan(random);
        if plan.rooms().len() > 1 {
            return ask_for_rooms(tally, &AskedPlan::new(&plan), random);
        }
    }
    let walked = some_walk(random);
    let record = walked.record();
    // No rooms are drawn: that would take long, and labels are enough.
    let plan = Plan {
        labels: walked.labels,
        rooms: Vec::new(),
    };
    for case in 0..CASES {
        let (mut record, mut groups) = (record.clone(), groups_of(&plan, random));
        if case > 0 && random.below(2) == 0 {
            put_a_fault(&mut record, &mut groups, random);
        }
        compare(tally, &record, &groups, random);
    }
}

/// Stops unless every answer has its share of the inputs that were accepted.
///
/// # Panics
///
/// If not so.
pub fn check_answers() {
    let answers = ANSWERS
        .each_ref()
        .map(|count| count.load(Ordering::Relaxed));
    let accepted: usize = answers.iter().sum();
    let has_its_share = |&count: &usize| 20 * count >= accepted;
    assert!(answers.iter().all(has_its_share), "Groups: {answers:?}");
}

/// Counts an answer.
fn count(answer: Option<Side>) {
    let side = Side::ALL.iter().position(|&side| answer == Some(side));
    ANSWERS[side.unwrap_or(4)].fetch_add(1, Ordering::Relaxed);
}

/// Compares two groups.
fn compare(tally: &mut Tally, record: &[u8], groups: &Groups, random: &mut Random) {
    let n = record.first().copied().map_or(0, usize::from);
    let answer = if by_definitions(n, SHORT, random) {
        tally.groups(&GivenRecord::new(record), groups)
    } else {
        tally.groups_quickly(record, groups)
    };
    if let Ok(side) = answer {
        count(side);
    }
}

/// Two groups of the plan's rooms. One room alone is in both.
fn groups_of(plan: &Plan, random: &mut Random) -> Groups {
    if plan.labels.len() == 1 {
        return [group_of(&[1]); 2];
    }
    some_groups(plan, random)
}

/// Asks for groups of rooms of a plan of two or more.
fn ask_for_rooms(tally: &mut Tally, plan: &AskedPlan, random: &mut Random) {
    let questions = plan.record.answer.as_ref().expect("a plan's record");
    for _ in 0..CASES {
        let groups = some_groups(questions.plan(), random);
        count(tally.groups_of_rooms(plan, &groups));
    }
}

/// Puts one fault, or two, into a record or into groups of its rooms.
fn put_a_fault(record: &mut Vec<u8>, groups: &mut Groups, random: &mut Random) {
    for _ in 0..random.pick(&[1, 1, 1, 2]) {
        let n = record.first().copied().map_or(0, usize::from);
        let which = random.below(2);
        match random.below(8) {
            0 => {
                // Outside, often the first one there or the last one.
                let any = random.between(n + 1, 256);
                put(&mut groups[which], random.pick(&[n + 1, any, 256]));
            }
            1 => groups[which] = [0; 32],
            2 => {
                let positions = positions_in(&groups[1 - which]);
                if !positions.is_empty() {
                    put(&mut groups[which], random.pick(&positions));
                }
            }
            3 => groups[which][random.below(32)] ^= 1 << random.below(8),
            _ => *record = damaged(record, random),
        }
    }
}

/// Puts a position into a group.
fn put(group: &mut Group, position: usize) {
    group[(position - 1) / 8] |= 1 << ((position - 1) % 8);
}
