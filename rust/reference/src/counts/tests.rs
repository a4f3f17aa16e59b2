//! The counts, held to the papers and to each other.

use super::{
    counts_by_growing, counts_by_judging, counts_of, one_label, one_label_more, plan_count,
    plan_total, plancount, Known, Lists, FEW_ROOMS, MOST_ROOMS,
};
use crate::cases::baxter_lists;
use crate::cases::counts::{term, MOSAIC};
use crate::Refusal;

/// The n-th Baxter number by the formula in 000.
fn baxter_number(n: u8) -> u64 {
    (0..n).map(|r| term(n, r)).sum()
}

#[test]
fn judging_and_growing_give_the_same() {
    for n in 1..=FEW_ROOMS {
        assert_eq!(counts_by_judging(n), counts_by_growing(n), "n = {n}");
    }
}

/// What is known of a list whose labels are there.
fn known(labels: &[u8]) -> Known {
    let is_above = |label, others: &[u8]| others.iter().all(|&other| other < label);
    let places = 0..labels.len();
    let before = places
        .clone()
        .filter(|&at| is_above(labels[at], &labels[..at]));
    let behind = places.filter(|&at| is_above(labels[at], &labels[at + 1..]));
    Known {
        from_left: before.count(),
        from_right: behind.count(),
        rises: labels.windows(2).filter(|two| two[0] < two[1]).count(),
    }
}

#[test]
fn lists_grow_as_the_baxter_lists_of_up_to_7_labels_do() {
    let mut grown = one_label();
    for n in 1..=7 {
        let mut lists = Lists::new();
        for labels in baxter_lists(n) {
            *lists.entry(known(&labels)).or_default() += 1;
        }
        assert_eq!(lists, grown, "n = {n}");
        grown = one_label_more(&grown);
    }
}

#[test]
fn the_totals_are_the_baxter_numbers_of_000() {
    for n in 1..=MOST_ROOMS {
        assert_eq!(plan_total(n), Ok(baxter_number(n)), "n = {n}");
    }
}

#[test]
fn the_counts_are_those_of_corollary_4_2_of_000() {
    for n in 1..=MOST_ROOMS {
        let terms: Vec<u64> = (0..n).map(|r| term(n, r)).collect();
        assert_eq!(counts_of(n), Ok(terms), "n = {n}");
    }
}

#[test]
fn the_totals_are_those_of_table_1_of_003_but_for_a_misprint() {
    for (n, printed) in (1..=MOST_ROOMS).zip(MOSAIC) {
        // Two digits of it have changed places; the formula decides.
        let meant = if n == 11 { 1_882_960 } else { printed };
        assert_eq!(plan_total(n), Ok(meant), "n = {n}");
    }
    assert_eq!(MOSAIC[10], 1_882_690);
}

/// Swap left and below, and rises are falls.
#[test]
fn as_many_plans_have_so_many_rises_as_have_so_many_falls() {
    for n in 1..=MOST_ROOMS {
        for rises in 0..n {
            let falls = n - 1 - rises;
            assert_eq!(plan_count(n, rises), plan_count(n, falls), "{n}, {rises}");
        }
    }
}

#[test]
fn a_total_is_the_sum_of_its_counts() {
    for n in 1..=MOST_ROOMS {
        let counts = (0..=255).map(|rises| plan_count(n, rises));
        assert_eq!(counts.sum::<Result<u64, Refusal>>(), plan_total(n));
    }
}

#[test]
fn no_plan_has_as_many_rises_as_rooms() {
    for n in 1..=MOST_ROOMS {
        for rises in n..=255 {
            assert_eq!(plan_count(n, rises), Ok(0), "{n}, {rises}");
        }
    }
}

#[test]
fn other_numbers_of_rooms_are_refused_whatever_the_rises() {
    for n in (0..=0).chain(18..=255) {
        assert_eq!(plan_total(n), Err(Refusal::NotCounted), "n = {n}");
        assert_eq!(counts_of(n), Err(Refusal::NotCounted), "n = {n}");
        for rises in 0..=255 {
            assert_eq!(plan_count(n, rises), Err(Refusal::NotCounted), "n = {n}");
        }
    }
}

#[test]
fn the_program_prints_a_line_for_each_of_153_pairs() {
    let text = plancount();
    let first = "1 0 1\n2 0 1\n2 1 1\n3 0 1\n3 1 4\n3 2 1\n4 0 1\n4 1 10\n4 2 10\n4 3 1\n";
    assert!(text.starts_with(first), "{text}");
    assert!(text.ends_with("\n17 15 816\n17 16 1\n"), "{text}");
    let pairs = (1..=17u8).flat_map(|n| (0..n).map(move |rises| (n, rises)));
    let lines: Vec<String> = pairs
        .map(|(n, rises)| format!("{n} {rises} {}\n", term(n, rises)))
        .collect();
    assert_eq!(lines.len(), 153);
    assert_eq!(text, lines.concat());
}
