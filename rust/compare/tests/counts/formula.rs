//! The formulas that 000 prints, and what follows from them.

use crate::help::{counts, total, COUNTED};
use reference::cases::counts::term;

#[test]
fn totals_are_the_baxter_numbers_by_the_formula_of_000() {
    for n in COUNTED {
        let baxter: u64 = (0..n).map(|r| term(n, r)).sum();
        assert_eq!(total(n), baxter, "n = {n}");
    }
}

/// By 000 every rise of a label list is a vertical segment of its floorplan.
#[test]
fn counts_are_those_of_corollary_4_2_of_000() {
    for n in COUNTED {
        let terms: Vec<u64> = (0..n).map(|r| term(n, r)).collect();
        assert_eq!(counts(n), terms, "n = {n}");
    }
}

#[test]
fn counts_add_up_to_the_total() {
    for n in COUNTED {
        assert_eq!(counts(n).iter().sum::<u64>(), total(n), "n = {n}");
    }
}

#[test]
fn there_are_as_many_plans_with_so_many_rises_as_with_so_many_falls() {
    for n in COUNTED {
        let by_falls: Vec<u64> = counts(n).into_iter().rev().collect();
        assert_eq!(counts(n), by_falls, "n = {n}");
    }
}
