//! Every list of the labels 1 to n, each once, for small n.

use crate::help::Named;
use compare::{report, Tally};
use reference::cases::barred::counted_down;
use reference::cases::{each_permutation, BAXTER_NUMBERS};

/// The number of orders of n labels, n = 1 to 8.
const ORDERS: [usize; 8] = [1, 2, 6, 24, 120, 720, 5040, 40320];

#[test]
fn every_permutation_of_up_to_8_labels() {
    let mut tally = Tally::new("permutations of up to 8 labels");
    for (n, (orders, baxter)) in (1..=8).zip(ORDERS.into_iter().zip(BAXTER_NUMBERS)) {
        let mut named = Named::default();
        each_permutation(n, |labels| named.count(tally.pattern(labels)));
        // Counted from the other end, a list has the other condition.
        let half = (orders - baxter) / 2;
        let expected = Named {
            none: baxter,
            first: half,
            second: half,
        };
        assert_eq!(named, expected, "n = {n}");
    }
    assert_eq!(tally.accepted(), ORDERS.iter().sum::<usize>());
    tally.finish(ORDERS.iter().sum());
}

#[test]
fn from_the_other_end_the_same_positions_meet_the_other_condition() {
    let mut compared = 0;
    for n in 1..=7 {
        each_permutation(n, |labels| {
            let [there, back] = [labels, &counted_down(labels)].map(nenturxo::pattern);
            let turned = there.map(|named| named.map(with_the_other_condition));
            assert_eq!(back, turned, "{labels:?}");
            compared += 1;
        });
    }
    report(format_args!("{compared} lists counted from both ends"));
    assert_eq!(compared, ORDERS[..7].iter().sum::<usize>());
}

fn with_the_other_condition(named: nenturxo::Pattern) -> nenturxo::Pattern {
    let condition = match named.condition {
        nenturxo::Condition::First => nenturxo::Condition::Second,
        nenturxo::Condition::Second => nenturxo::Condition::First,
    };
    nenturxo::Pattern { condition, ..named }
}
