//! Numbers that are small enough to be written out.

use compare::Tally;
use reference::cases::BAXTER_NUMBERS;
use reference::Refusal;

/// How many plans of 1 to 5 rooms have no rise, one, two, and so on.
const COUNTS: [&[u64]; 5] = [
    &[1],
    &[1, 1],
    &[1, 4, 1],
    &[1, 10, 10, 1],
    &[1, 20, 50, 20, 1],
];

#[test]
fn counts_of_up_to_5_rooms() {
    let mut tally = Tally::new("plan counts of up to 5 rooms");
    for (n, counts) in (1..).zip(COUNTS) {
        for (rises, &count) in (0..).zip(counts) {
            assert_eq!(tally.plan_count(n, rises), Ok(count), "{n}, {rises}");
        }
    }
    tally.finish(1 + 2 + 3 + 4 + 5);
}

#[test]
fn totals_of_up_to_8_rooms() {
    let mut tally = Tally::new("plan totals of up to 8 rooms");
    for (n, number) in (1..).zip(BAXTER_NUMBERS) {
        assert_eq!(tally.plan_total(n), Ok(number as u64), "{n}");
    }
    tally.finish(8);
}

/// The numbers of rooms just below and just above those that are counted.
#[test]
fn no_rooms_and_18_rooms() {
    let mut tally = Tally::new("plans of 0 and of 18 rooms");
    for n in [0, 18] {
        assert_eq!(tally.plan_total(n), Err(Refusal::NotCounted));
        for rises in [0, 1, 17, 18, 255] {
            assert_eq!(tally.plan_count(n, rises), Err(Refusal::NotCounted));
        }
    }
    tally.finish(2 * 6);
}

#[test]
fn both_sides_give_the_same_number_and_sentence_to_the_refusal() {
    let bound = nenturxo::Refusal::NOT_COUNTED;
    assert_eq!(bound.number(), 30);
    assert_eq!(bound.number(), u32::from(Refusal::NotCounted.number()));
    assert_eq!(bound.cause(), Refusal::NotCounted.to_string());
}
