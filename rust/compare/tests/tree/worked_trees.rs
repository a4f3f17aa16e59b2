//! Trees and refusals that the request and 003 print, or that can be read off
//! a drawing.

use compare::{GivenTree, Tally};
use reference::cases::slicing::{SlicingPlan, WORKED};
use reference::cases::walk::Walked;
use reference::cases::worked::{CONVERTED, LISTS, REFUSED_RECORDS};
use reference::{record_of, triples, Cut, CuttingTree, Refusal};

/// The record of a label list.
fn record(labels: &[u8]) -> Vec<u8> {
    let n = u8::try_from(labels.len()).expect("at most 255 labels");
    record_of(n, &triples(labels))
}

#[test]
fn the_tree_of_the_request_and_other_small_ones() {
    let mut tally = Tally::new("worked trees");
    for (record, tree) in WORKED {
        tally.expect_tree(record, tree);
    }
    tally.finish_in_threes(WORKED.len());
}

#[test]
fn trees_of_all_plans_of_3_rooms() {
    let row = |cut: u8| [cut, 3, 1, 1, 1].to_vec();
    let first = |cut: u8| [cut, 2, 1, 5 - cut, 2, 1, 1].to_vec();
    let last = |cut: u8| [cut, 2, 5 - cut, 2, 1, 1, 1].to_vec();
    let plans = [
        ([1, 2, 3], row(2)),
        ([3, 2, 1], row(3)),
        ([1, 3, 2], first(2)),
        ([2, 1, 3], last(2)),
        ([3, 1, 2], first(3)),
        ([2, 3, 1], last(3)),
    ];
    let mut tally = Tally::new("trees of all plans of 3 rooms");
    for (labels, tree) in &plans {
        tally.expect_tree(&record(labels), tree);
    }
    tally.finish_in_threes(plans.len());
}

/// Figure 13 of 003: three strips, of which the first one is A, and the others
/// are cut horizontally into three rooms each.
#[test]
fn the_strips_of_figure_13_of_003() {
    let strip = || CuttingTree::Node(Cut::Horizontal, vec![CuttingTree::Leaf; 3]);
    let strips = vec![CuttingTree::Leaf, strip(), strip()];
    let plan = SlicingPlan::of(CuttingTree::Node(Cut::Vertical, strips));
    assert_eq!(plan.walked.labels, [1, 4, 3, 2, 7, 6, 5]);
    let mut tally = Tally::new("the strips of figure 13 of 003");
    let tree = [2, 3, 1, 3, 3, 1, 1, 1, 3, 3, 1, 1, 1];
    tally.expect_tree(&plan.record(), &tree);
    tally.finish_in_threes(1);
}

/// Of the plans that the sheet works out, and what 000 converts 2413 to, those
/// of 5 rooms are the two pinwheels, and no larger one is slicing either.
#[test]
fn plans_of_the_sheet() {
    let mut tally = Tally::new("trees of the sheet's plans");
    let plans = LISTS.into_iter().chain([CONVERTED]);
    for (_, record) in plans.filter(|(labels, _)| labels.len() >= 5) {
        tally.expect_refused_tree(record, Refusal::NotSlicing);
    }
    tally.expect_refused([Refusal::NotSlicing], [3 * 5]);
    for (record, refusal) in REFUSED_RECORDS {
        tally.expect_refused_tree(record, refusal);
    }
    tally.finish(3 * 5 + 3 * REFUSED_RECORDS.len());
}

#[test]
fn the_longest_tree_has_763_bytes() {
    // 1 255 2 254 ..: each room is left of all others or below them.
    let pairs = (1..=127).flat_map(|label| [label, 255 - (label - 1)]);
    let labels: Vec<u8> = pairs.chain([128]).collect();
    let mut tree = [[2, 2, 1], [3, 2, 1]].repeat(127).concat();
    tree.push(1);
    assert_eq!(tree.len(), nenturxo::TREE_CAPACITY);
    let mut tally = Tally::new("the longest tree");
    tally.expect_tree(&record(&labels), &tree);
    tally.finish_in_threes(1);
}

/// Two causes at once, in the order 9, 10, 11, 14, 12, 13, 19, 15: a record,
/// the length of a slice, and the refusal that comes first. A record that is
/// refused with 12 or 13 has no plan, so the cause 19 stands beside the others
/// only.
#[test]
fn each_refusal_comes_before_the_next_ones() {
    let rising = Walked::rising(255).record();
    let pairs: [(&[u8], usize, Refusal); 19] = [
        (&[], 0, Refusal::NoKind),                             // 9 and 15
        (&[0x00, 0x31, 0x70], 763, Refusal::NoKind),           // 9, and 19 for kind 5
        (&[0x05, 0x31], 763, Refusal::BodyShort),              // 10
        (&[0x05, 0x31], 0, Refusal::BodyShort),                // 10 and 15
        (&[0x05, 0x31, 0x70, 0x00], 763, Refusal::BytesAfter), // 11 and 19
        (&[0x05, 0x31, 0x71, 0x00], 763, Refusal::BytesAfter), // 11, 14 and 19
        (&[0x02, 0x40, 0x00], 3, Refusal::BytesAfter),         // 11 and 15
        (&[0x05, 0x31, 0x71], 763, Refusal::SpareBit),         // 14 and 19
        (&[0x05, 0x0e, 0xe8], 0, Refusal::SpareBit),           // 14, 19 and 15
        (&[0x02, 0x41], 3, Refusal::SpareBit),                 // 14 and 15
        (&[0x02, 0x60], 0, Refusal::RunMissing),               // 12 and 15
        (&[0x06, 0x31, 0x77], 763, Refusal::SpareBit),         // 14 and 12
        (&[0x06, 0x31, 0x76], 763, Refusal::RunMissing),       // 12 after a pinwheel
        (&[0x06, 0x31, 0x70], 763, Refusal::RunsLeft),         // 13 after a pinwheel
        (&[0x02, 0x00], 0, Refusal::RunsLeft),                 // 13 and 15
        (&[0x05, 0x31, 0x70], 12, Refusal::NotSlicing),        // 19 and 15
        (&[0x05, 0x0e, 0xe0], 0, Refusal::NotSlicing),         // 19 and 15
        (&[0x04, 0x47, 0x00], 9, Refusal::SliceShort),         // 15 alone
        (&rising, 256, Refusal::SliceShort),                   // 15 alone
    ];
    let mut tally = Tally::new("records with two causes");
    for (record, capacity, refusal) in pairs {
        let answer = tally.tree(&GivenTree::new(record), capacity);
        assert_eq!(answer, Err(refusal), "{record:02X?} into {capacity} bytes");
    }
    tally.finish(pairs.len());
}
