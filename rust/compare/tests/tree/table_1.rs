//! The numbers of slicing plans.

use compare::tree::library_tree;
use compare::{grouped, report, GivenTree};
use nenturxo::Refusal;
use reference::cases::slicing::TABLE_1;
use reference::cases::walk::each_walk;
use reference::record_of;

/// The numbers of slicing plans of `n` rooms and of all plans, counted by
/// asking the library for the tree of every plan. The fast Rust version must
/// give the same trees.
fn counted(n: u8) -> (usize, usize) {
    let (mut slicing, mut all) = (0, 0);
    each_walk(n.into(), |triples| {
        let record = record_of(n, triples);
        let tree = library_tree(&record);
        let fast = GivenTree::quick(&record[..]).answer;
        assert_eq!(tree.as_ref().ok(), fast.as_ref().ok(), "{record:02X?}");
        match tree {
            Ok(tree) => {
                let leaves = tree.iter().filter(|&&byte| byte == 1).count();
                assert_eq!(leaves, usize::from(n), "{record:02X?}");
                slicing += 1;
            }
            Err(refusal) => assert_eq!(refusal, Refusal::NOT_SLICING, "{record:02X?}"),
        }
        all += 1;
    });
    (slicing, all)
}

#[test]
fn there_are_as_many_slicing_plans_of_1_to_10_rooms_as_table_1_of_003_says() {
    let mut plans = 0;
    for (n, numbers) in (1..=10).zip(TABLE_1) {
        assert_eq!(counted(n), numbers, "n = {n}");
        plans += numbers.1;
    }
    let plans = grouped(plans);
    report(format_args!("trees of all {plans} plans of 1 to 10 rooms"));
    assert_eq!(plans, "397,815");
}

/// The Schröder numbers for 1 to 8 rooms, as 000 prints them in its footnote 1.
const PRINTED_IN_000: [usize; 8] = [1, 2, 6, 22, 90, 394, 1_086, 8_558];

/// The numbers of slicing plans are the Schröder numbers, of which 000 prints
/// 1086 where it is 1806 for 7 rooms: two digits have changed places.
#[test]
fn schroeder_numbers_are_those_of_000_but_for_a_misprint() {
    let mut misprinted = Vec::new();
    for (n, printed) in (1..=8).zip(PRINTED_IN_000) {
        let (slicing, _) = counted(n);
        if slicing != printed {
            misprinted.push((n, slicing, printed));
        }
    }
    assert_eq!(misprinted, [(7, 1_806, 1_086)]);
}
