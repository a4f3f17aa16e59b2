//! Placings in which the relation of just two rooms hangs on 1: they touch, or
//! they overlap by 1 and all others honour the relations.

use crate::help::{each_plan, is_no_lower};
use compare::Tally;
use reference::cases::sizes::{Placing, SizedRecord};
use reference::cases::walk::{list_in_turn, some_count, Walked};
use reference::cases::Random;
use reference::{plan_of, Plan, Refusal, Side};

/// One way of a plan with sizes, and two rooms of which the first is before the
/// second with none between.
struct Pair<'a> {
    plan: &'a Plan,
    before: Side,
    sizes: &'a [u16],
    first: usize,
    second: usize,
}

impl Pair<'_> {
    /// Where the rooms start if the second one of the two starts at `second` and
    /// the first one `overlap` too late for that, and each other one where the
    /// furthest room before it ends.
    fn starts(&self, second: u32, overlap: u32) -> Vec<u32> {
        let mut starts: Vec<u32> = Vec::new();
        for room in 0..self.sizes.len() {
            let before = (0..room).filter(|&other| self.plan.side(other, room) == self.before);
            let ends = before.map(|other| starts[other] + u32::from(self.sizes[other]));
            let furthest = ends.max().unwrap_or(0);
            starts.push(if room == self.first {
                second + overlap - u32::from(self.sizes[room])
            } else if room == self.second {
                second
            } else {
                furthest
            });
        }
        starts
    }
}

/// Whether a room is before another one with none between.
fn is_next(plan: &Plan, before: Side, first: usize, second: usize) -> bool {
    let is_before = |one, other| plan.side(one, other) == before;
    let between = |&other: &usize| is_before(first, other) && is_before(other, second);
    is_before(first, second) && !(first + 1..second).any(|other| between(&other))
}

/// So far on that all rooms before fit, whatever they are: 2^25.
const FAR: u32 = 1 << 25;

/// Compares three placings in which two rooms stand far on: with 1 between them,
/// touching, and overlapping by 1. The other way all stand at `others`.
fn compare(tally: &mut Tally, sized: &SizedRecord, pair: &Pair<'_>, others: &Placing) {
    let broken = Err(Refusal::RelationBroken);
    for (second, overlap, expected) in [
        (FAR + 1, 0, Ok(())),
        (FAR, 0, Ok(())),
        (FAR, 1, broken),
        (FAR - 1, 1, broken),
    ] {
        let starts = pair.starts(second, overlap);
        let (x, y) = match pair.before {
            Side::Left => (starts, others.y.clone()),
            _ => (others.x.clone(), starts),
        };
        tally.expect_placing(sized, &Placing { x, y }, expected);
    }
}

/// Compares two rooms of a plan, if there is none between them. Says whether.
fn compare_two(
    tally: &mut Tally,
    plan: &Plan,
    sized: &SizedRecord,
    [first, second]: [usize; 2],
) -> bool {
    let before = plan.side(first, second);
    if !is_next(plan, before, first, second) {
        return false;
    }
    let sizes = match before {
        Side::Left => &sized.widths,
        _ => &sized.heights,
    };
    let pair = Pair {
        plan,
        before,
        sizes,
        first,
        second,
    };
    compare(tally, sized, &pair, &Placing::staircase(sized));
    true
}

/// The plan of a walk.
fn plan(walked: &Walked) -> Plan {
    plan_of(&walked.record()).expect("a walk is accepted")
}

#[test]
fn all_pairs_of_all_plans_of_up_to_6_rooms() {
    let mut tally = Tally::new("two rooms of up to 6 that touch or overlap by 1");
    let mut random = Random::from_seed(511);
    let mut pairs = 0;
    for n in 2..=6 {
        each_plan(n, |walked| {
            let plan = plan(walked);
            let sized = SizedRecord::some(walked, &mut random);
            for second in 1..n {
                for first in 0..second {
                    let compared = compare_two(&mut tally, &plan, &sized, [first, second]);
                    pairs += usize::from(compared);
                }
            }
        });
    }
    assert_eq!(tally.accepted(), 2 * pairs);
    tally.expect_refused([Refusal::RelationBroken], [2 * pairs]);
    // Every room but the first has one next to it.
    tally.finish(4 * (2 + 6 * 2 + 22 * 3 + 92 * 4 + 422 * 5));
}

#[test]
fn pairs_of_random_plans() {
    const PAIRS: usize = 1_500;
    let name = "two rooms of many that touch or overlap by 1";
    let tally = Tally::of_rounds(name, 512, 0..PAIRS, |tally, random, round| {
        let n = [some_count(random).max(2), 255][usize::from(round % 8 == 0)];
        let walked = list_in_turn(n, round, random);
        let (plan, sized) = (plan(&walked), SizedRecord::some(&walked, random));
        // Far from each other in some rounds, as far as there are such.
        loop {
            let second = random.between(1, n - 1);
            let any = random.below(second);
            let first = [any, second - 1][usize::from(random.below(4) == 0)];
            if compare_two(tally, &plan, &sized, [first, second]) {
                break;
            }
        }
    });
    assert_eq!(tally.accepted(), 2 * PAIRS);
    tally.finish(4 * PAIRS);
}

/// All corners moved by the same number are as good, up to where the furthest
/// corner is the last number there is.
#[test]
fn lowest_corners_anywhere() {
    const PLANS: usize = 600;
    let name = "lowest corners moved anywhere";
    let tally = Tally::of_rounds(name, 513, 0..PLANS, |tally, random, round| {
        let n = some_count(random);
        let sized = SizedRecord::some(&list_in_turn(n, round, random), random);
        let lowest = tally.expect_corners(&sized);
        let room = |starts: &[u32]| u32::MAX - starts.iter().max().expect("a plan has rooms");
        let by = |starts: &[u32], random: &mut Random| {
            let far = room(starts);
            random.pick(&[0, 1, far / 2, far - 1, far])
        };
        let (across, up) = (by(&lowest.x, random), by(&lowest.y, random));
        let mut moved = Placing {
            x: lowest.x.iter().map(|x| x + across).collect(),
            y: lowest.y.iter().map(|y| y + up).collect(),
        };
        assert!(is_no_lower(&moved, &lowest));
        tally.expect_placing(&sized, &moved, Ok(()));
        // The same with one relation broken.
        if n > 1 {
            moved.break_a_relation(&sized, random);
            tally.expect_placing(&sized, &moved, Err(Refusal::RelationBroken));
        }
    });
    tally.expect_often(PLANS / 2, &[Refusal::RelationBroken]);
    tally.finish(4 * PLANS);
}

/// Rooms that wrap round: the first one of a row or a pile ends beyond all
/// numbers, and the next begins where that sum would be in 32 bits.
#[test]
fn sums_that_would_wrap_in_32_bits() {
    let mut tally = Tally::new("rooms that end beyond 2^32");
    let broken = Err(Refusal::RelationBroken);
    for n in [2, 3, 8, 100, 255u8] {
        for size in [1, 2, 9, 65_535] {
            let row = SizedRecord::equal(&Walked::rising(n), size);
            let pile = SizedRecord::equal(&Walked::falling(n), size);
            let lowest = tally.expect_corners(&row);
            assert_eq!(tally.expect_corners(&pile).y, lowest.x);
            let none = vec![0; usize::from(n)];
            for from in [u32::MAX, u32::MAX - u32::from(size) + 1] {
                let starts: Vec<u32> = lowest.x.iter().map(|x| x.wrapping_add(from)).collect();
                let (x, y) = (starts.clone(), none.clone());
                tally.expect_placing(&row, &Placing { x, y }, broken);
                let (x, y) = (none.clone(), starts.clone());
                tally.expect_placing(&pile, &Placing { x, y }, broken);
                // The other way nothing is before anything.
                let (x, y) = (lowest.x.clone(), starts.clone());
                tally.expect_placing(&row, &Placing { x, y }, Ok(()));
                let (x, y) = (starts, lowest.x.clone());
                tally.expect_placing(&pile, &Placing { x, y }, Ok(()));
            }
        }
    }
    tally.expect_refused([Refusal::RelationBroken], [5 * 4 * 4]);
    tally.finish(5 * 4 * (6 + 8));
}

/// Only the last room of a row may end beyond all numbers.
#[test]
fn the_last_room_may_end_beyond_2_to_the_32() {
    let mut tally = Tally::new("last rooms that end beyond 2^32");
    for n in [1, 2, 3, 8, 100, 255u8] {
        for (walked, is_row) in [(Walked::rising(n), true), (Walked::falling(n), false)] {
            let sized = SizedRecord::equal(&walked, 65_535);
            let place = usize::from(n) - 1;
            let mut placing = Placing::staircase(&sized);
            (placing.x[place], placing.y[place]) = (u32::MAX, u32::MAX);
            tally.expect_placing(&sized, &placing, Ok(()));
            if n > 1 {
                let starts = if is_row {
                    &mut placing.x
                } else {
                    &mut placing.y
                };
                starts[place - 1] = u32::MAX - 65_535;
                tally.expect_placing(&sized, &placing, Ok(()));
                let starts = if is_row {
                    &mut placing.x
                } else {
                    &mut placing.y
                };
                starts[place - 1] += 1;
                tally.expect_placing(&sized, &placing, Err(Refusal::RelationBroken));
            }
        }
    }
    tally.finish(2 * (1 + 5 * 3));
}
