//! All rooms of a plan, up to 255, in two groups.

use crate::help::from_to;
use compare::{GivenRecord, Tally};
use reference::cases::groups::group_of;
use reference::cases::walk::{list_in_turn, Walked};
use reference::{Group, Side};

/// A row, where all rooms up to one are left of all others, and a pile.
#[test]
fn rows_and_piles_of_255_rooms() {
    let mut tally = Tally::new("rows and piles in two groups");
    for n in [2, 8, 9, 64, 65, 128, 254, 255] {
        for (walked, side) in [
            (Walked::rising(n), Side::Left),
            (Walked::falling(n), Side::Below),
        ] {
            let given = GivenRecord::new(walked.record());
            let n = usize::from(n);
            for last in 1..n {
                let groups = [from_to(1, last), from_to(last + 1, n)];
                tally.expect_both_ways(&given, &groups, Ok(Some(side)));
            }
        }
    }
    tally.finish(2 * 2 * (1 + 7 + 8 + 63 + 64 + 127 + 253 + 254));
}

/// All rooms up to a position or a label, and all others.
#[test]
fn plans_of_255_rooms_parted_everywhere() {
    const PLANS: usize = 6;
    let name = "all 255 rooms in two groups";
    let tally = Tally::of_rounds(name, 661, 0..PLANS, |tally, random, round| {
        let walked = match round {
            4 | 5 => Walked::with_128_runs()[round - 4].clone(),
            _ => list_in_turn(255, round, random),
        };
        let given = GivenRecord::new(walked.record());
        for last in 1..255 {
            let with_labels = |small: bool| -> Group {
                let is_in =
                    |&position: &usize| (usize::from(walked.labels[position - 1]) <= last) == small;
                group_of(&(1..=255).filter(is_in).collect::<Vec<_>>())
            };
            for groups in [
                [from_to(1, last), from_to(last + 1, 255)],
                [with_labels(true), with_labels(false)],
            ] {
                let _ = tally.groups(&given, &groups);
            }
        }
    });
    assert_eq!(tally.accepted(), PLANS * 2 * 254);
    tally.finish(PLANS * 2 * 254);
}

/// Two rows, one on the other, and two piles, side by side, with so many rooms in
/// the first one: the labels, and how the first one stands to the other.
fn two_rows_and_two_piles(first: u8) -> [(Vec<u8>, Side); 2] {
    let rest = 255 - first;
    let rows = (rest + 1..=255).chain(1..=rest).collect();
    let piles = (1..=first).rev().chain((first + 1..=255).rev()).collect();
    [(rows, Side::Below), (piles, Side::Left)]
}

/// So all 255 rooms are in two groups with a relation, which is lost where the
/// last room of the first group goes over to the second one.
#[test]
fn two_rows_or_piles_are_two_groups() {
    let mut tally = Tally::new("two rows and two piles");
    for first in 2..=253 {
        for (labels, side) in two_rows_and_two_piles(first) {
            let mut record = [0; nenturxo::RECORD_CAPACITY];
            let length = reference::labels_in(&labels, &mut record).expect("a plan");
            let given = GivenRecord::new(&record[..length]);
            let last = usize::from(first);
            let whole = [from_to(1, last), from_to(last + 1, 255)];
            tally.expect_both_ways(&given, &whole, Ok(Some(side)));
            let mixed = [from_to(1, last - 1), from_to(last, 255)];
            tally.expect_both_ways(&given, &mixed, Ok(None));
        }
    }
    tally.finish(2 * 2 * 2 * 252);
}
