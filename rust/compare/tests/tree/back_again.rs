//! There and back: the bytes that the library writes are a tree, and of that
//! tree the plan can be drawn again.

use compare::tree::library_tree;
use compare::{repeat, report};
use nenturxo::{labels_in, Refusal, RECORD_CAPACITY};
use reference::cases::slicing::{SlicingPlan, TABLE_1};
use reference::cases::walk::{each_walk, some_count};
use reference::record_of;
use std::collections::HashSet;

/// Reads the tree at the front of `bytes`, cut by the lines of another kind
/// than the node above it, and gives its labels and the bytes after it. The
/// smallest label is 1 more than `smaller`.
///
/// # Panics
///
/// If that is not what stands there.
fn read(bytes: &[u8], above: u8, smaller: u8) -> (Vec<u8>, &[u8]) {
    match *bytes {
        [1, ref rest @ ..] => (vec![smaller + 1], rest),
        [kind @ (2 | 3), count @ 2..=255, ref rest @ ..] if kind != above => {
            let mut rest = rest;
            let mut parts = Vec::new();
            for _ in 0..count {
                let (part, after) = read(rest, kind, 0);
                parts.push(part);
                rest = after;
            }
            (placed(&parts, kind, smaller), rest)
        }
        _ => panic!("no tree below kind {above}: {bytes:?}"),
    }
}

/// The labels of all parts of a node, each of which has labels from 1 on. Left
/// to right labels go up, bottom to top they go down.
fn placed(parts: &[Vec<u8>], kind: u8, smaller: u8) -> Vec<u8> {
    let count = |parts: &[Vec<u8>]| parts.iter().map(Vec::len).sum::<usize>();
    let mut labels = Vec::new();
    for (at, part) in parts.iter().enumerate() {
        let others = match kind {
            2 => count(&parts[..at]),
            _ => count(&parts[at + 1..]),
        };
        let below = smaller + u8::try_from(others).expect("at most 255 rooms");
        labels.extend(part.iter().map(|label| below + label));
    }
    labels
}

/// The record of the plan that a tree is of, by the library.
fn record_of_tree(tree: &[u8]) -> Result<Vec<u8>, Refusal> {
    let (labels, rest) = read(tree, 0, 0);
    assert!(rest.is_empty(), "bytes after the tree: {tree:?}");
    let mut record = vec![0; RECORD_CAPACITY];
    let length = labels_in(&labels, &mut record)?;
    record.truncate(length);
    Ok(record)
}

#[test]
fn every_slicing_plan_of_up_to_8_rooms_comes_back() {
    let mut trees = HashSet::new();
    for n in 1..=8 {
        each_walk(usize::from(n), |triples| {
            let record = record_of(n, triples);
            if let Ok(tree) = library_tree(&record) {
                assert_eq!(record_of_tree(&tree), Ok(record), "{tree:?}");
                assert!(trees.insert(tree), "two plans with one tree");
            }
        });
    }
    report(format_args!("{} trees, all different", trees.len()));
    let slicing = TABLE_1.map(|(slicing, _)| slicing);
    assert_eq!(trees.len(), slicing[..8].iter().sum());
}

#[test]
fn random_slicing_plans_come_back() {
    const PLANS: usize = 6_000;
    repeat(341, 0..PLANS, |random, round| {
        let n = [255, some_count(random)][round % 2];
        let plan = SlicingPlan::in_turn(n, round / 2, random);
        let tree = library_tree(&plan.record()).expect("the plan is slicing");
        assert_eq!(record_of_tree(&tree), Ok(plan.record()), "{tree:?}");
    });
    report(format_args!("{PLANS} random slicing plans came back"));
}

#[test]
#[should_panic(expected = "no tree below kind 2")]
fn levels_that_do_not_alternate_are_no_tree() {
    let _ = record_of_tree(&[2, 2, 2, 2, 1, 1, 1]);
}

#[test]
#[should_panic(expected = "bytes after the tree")]
fn bytes_after_the_root_are_no_part_of_the_tree() {
    let _ = record_of_tree(&[2, 2, 1, 1, 1]);
}
