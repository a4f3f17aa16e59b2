//! Answers that can be read off the sheet, and its traps.

use compare::{AskedPlan, AskedRecord, Floorplan, Tally};
use reference::cases::asked;
use reference::cases::walk::Walked;
use reference::{Refusal, Relation, Side};

/// Asks for two positions both ways round.
fn expect_both_ways(
    tally: &mut Tally,
    given: &AskedRecord,
    [first, second]: [u8; 2],
    (relation, touch): (Relation, bool),
) {
    tally.expect_answer(given, first, second, Ok((relation, touch)));
    tally.expect_answer(given, second, first, Ok((relation.reversed(), touch)));
}

#[test]
fn every_pair_of_the_worked_plans() {
    let mut tally = Tally::new("pairs of worked plans");
    for plan in asked::PLANS {
        let given = AskedRecord::new(plan.record);
        for &(pair, standing) in plan.pairs {
            expect_both_ways(&mut tally, &given, pair, standing.answer());
        }
    }
    // Two plans of 3 rooms, five of 4, six of 5, two of 6 and one of 7.
    let pairs = 2 * 3 + 5 * 6 + 6 * 10 + 2 * 15 + 21;
    assert_eq!(tally.cases(), 2 * pairs);
    tally.finish(2 * pairs);
}

/// Asks for two positions of a row or a pile: of neighbours the relation is
/// direct and they touch, else it takes a step from each one to the next.
fn expect_steps(tally: &mut Tally, plan: &AskedPlan, pair: [u8; 2], side: Side) {
    let [first, second] = pair;
    let direct = second == first + 1;
    let answer = (Relation { side, direct }, direct);
    expect_both_ways(tally, &plan.record, pair, answer);
    // The rooms of a drawing stand by position.
    let [a, b] = pair.map(|position| usize::from(position) - 1);
    assert_eq!(plan.chains.steps(side, a, b), Some(second - first));
}

#[test]
fn rising_and_falling_plans() {
    const COUNTS: [u8; 5] = [2, 3, 40, 254, 255];
    let mut tally = Tally::new("rising and falling plans");
    for n in COUNTS {
        for (walked, side) in [
            (Walked::rising(n), Side::Left),
            (Walked::falling(n), Side::Below),
        ] {
            let plan = AskedPlan::new(&Floorplan::drawn(&walked.labels));
            assert_eq!(plan.record.input, walked.record());
            for first in 1..n {
                for second in first + 1..=n {
                    expect_steps(&mut tally, &plan, [first, second], side);
                }
            }
        }
    }
    let pairs = COUNTS.map(usize::from).map(|n| n * (n - 1) / 2);
    let cases = 2 * 2 * pairs.iter().sum::<usize>();
    assert_eq!(tally.accepted(), cases);
    tally.finish(cases);
}

#[test]
fn a_position_outside_is_16_and_else_equal_ones_are_17() {
    let mut tally = Tally::new("positions outside and equal");
    for n in [1, 2, 3, 127, 128, 254, 255u8] {
        let given = AskedRecord::new(Walked::rising(n).record());
        let outside = Err(Refusal::PositionOutside);
        let equal = Err(Refusal::PositionsEqual);
        tally.expect_answer(&given, 0, 0, outside);
        tally.expect_answer(&given, 0, 1, outside);
        tally.expect_answer(&given, n, 0, outside);
        tally.expect_answer(&given, 1, 1, equal);
        tally.expect_answer(&given, n, n, equal);
        if n < 255 {
            tally.expect_answer(&given, n + 1, n + 1, outside);
            tally.expect_answer(&given, n + 1, 1, outside);
            tally.expect_answer(&given, n, n + 1, outside);
            tally.expect_answer(&given, 255, 0, outside);
            tally.expect_answer(&given, 255, 255, outside);
        }
    }
    tally.finish(7 * 5 + 6 * 5);
}
