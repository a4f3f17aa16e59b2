//! The request's sentence: a plan is slicing exactly if no four of its labels,
//! in order of position, are shaped like 2413 or 3142.

use compare::tree::library_tree;
use compare::{repeat, report};
use nenturxo::Refusal;
use reference::cases::slicing::{SlicingPlan, PINWHEELS, TABLE_1};
use reference::cases::walk::{each_walk, list_in_turn, Walked};
use reference::{is_slicing, labels_of};

/// Whether the library has a tree for a walk, once that is what the sentence
/// says of its labels.
fn has_a_tree(walked: &Walked) -> bool {
    let tree = library_tree(&walked.record());
    if let Err(refusal) = tree {
        assert_eq!(refusal, Refusal::NOT_SLICING, "{:?}", walked.labels);
    }
    let slicing = is_slicing(&walked.labels);
    assert_eq!(tree.is_ok(), slicing, "{:?}", walked.labels);
    slicing
}

#[test]
fn all_plans_of_up_to_8_rooms() {
    for (n, (slicing, _)) in (1..=8).zip(TABLE_1) {
        let mut trees = 0;
        each_walk(n, |triples| {
            let labels = labels_of(triples).expect("a walk has labels");
            let triples = triples.to_vec();
            trees += usize::from(has_a_tree(&Walked { labels, triples }));
        });
        assert_eq!(trees, slicing, "n = {n}");
    }
}

#[test]
fn random_plans_of_9_to_30_rooms() {
    const PLANS: usize = 3_000;
    let mut trees = 0;
    repeat(301, 0..PLANS, |random, round| {
        let n = random.between(9, 30);
        let walked = list_in_turn(n, round, random);
        trees += usize::from(has_a_tree(&walked));
        let plan = SlicingPlan::in_turn(n - 4, round, random);
        assert!(has_a_tree(&plan.walked), "{:?}", plan.walked.labels);
        let place = random.below(n - 4);
        assert!(!has_a_tree(
            &plan.with_a_pinwheel(place, random.pick(&PINWHEELS))
        ));
    });
    report(format_args!(
        "{PLANS} plans of 9 to 30 rooms, {trees} of them slicing"
    ));
    assert!((PLANS / 50..PLANS / 2).contains(&trees), "{trees}");
}
