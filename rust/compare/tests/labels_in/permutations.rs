//! Every list of the labels 1 to n, each once, for small n.

use compare::records::record_length;
use compare::{report, Tally};
use reference::cases::{baxter_lists_up_to, each_permutation, BAXTER_NUMBERS};
use reference::Refusal;
use std::collections::HashSet;

/// The number of orders of n labels, n = 1 to 8.
const ORDERS: [usize; 8] = [1, 2, 6, 24, 120, 720, 5040, 40320];

/// The formula of 000, section 2.1.
fn baxter_number(n: u64) -> u64 {
    let choose = |upper: u64, lower: u64| -> u64 {
        (0..lower).fold(1, |product, i| product * (upper - i) / (i + 1))
    };
    let sum: u64 = (0..n)
        .map(|r| choose(n + 1, r) * choose(n + 1, r + 1) * choose(n + 1, r + 2))
        .sum();
    sum / (choose(n + 1, 1) * choose(n + 1, 2))
}

#[test]
fn baxter_numbers_follow_the_formula_of_000() {
    for (n, number) in (1..).zip(BAXTER_NUMBERS) {
        assert_eq!(baxter_number(n), number as u64, "n = {n}");
    }
}

#[test]
fn every_permutation_of_up_to_8_labels() {
    let mut tally = Tally::new("permutations of up to 8 labels");
    for n in 1..=8 {
        let needed = record_length(usize::from(n));
        each_permutation(n, |labels| {
            for capacity in [0, needed - 1, needed, needed + 1] {
                let _ = tally.labels_in(labels, capacity);
            }
        });
    }
    let baxter = baxter_lists_up_to(8);
    let all: usize = ORDERS.iter().sum();
    assert_eq!(tally.accepted(), 2 * baxter);
    tally.expect_refused(
        [Refusal::SliceShort, Refusal::BarredPattern],
        [2 * baxter, 4 * (all - baxter)],
    );
    tally.finish(4 * all);
}

#[test]
fn different_permutations_of_up_to_8_labels_have_different_records() {
    let mut records = HashSet::new();
    for n in 1..=8 {
        each_permutation(n, |labels| {
            let mut record = [0; nenturxo::RECORD_CAPACITY];
            if let Ok(length) = nenturxo::labels_in(labels, &mut record) {
                let is_new = records.insert(record[..length].to_vec());
                assert!(is_new, "the record of {labels:?} is another list's too");
            }
        });
    }
    report(format_args!("{} records, all different", records.len()));
    assert_eq!(records.len(), baxter_lists_up_to(8));
}
