//! What holds a version of "Tree" to the definitions.

use crate::cases::slicing::{SlicingPlan, COMBS, PINWHEELS};
use crate::cases::walk::{halves, list_in_turn, some_count};
use crate::cases::{every_code, Random};
use crate::{record_of, tree, Cut, Refusal};

/// A version of "Tree".
type Version = fn(&[u8], &mut [u8]) -> Result<usize, Refusal>;

/// Compares a version with the definitions on a slice of so many bytes.
fn compare_into(version: Version, record: &[u8], capacity: usize) -> Result<usize, Refusal> {
    let (mut expected, mut found) = (vec![0xa5; capacity], vec![0xa5; capacity]);
    let answers = (tree(record, &mut expected), version(record, &mut found));
    assert_eq!(answers.0, answers.1, "{record:02x?} into {capacity}");
    assert_eq!(expected, found, "{record:02x?} into {capacity}");
    answers.0
}

/// Compares a version with the definitions on slices of every length that
/// matters, and gives the answer to a long one.
fn compare(version: Version, record: &[u8]) -> Result<usize, Refusal> {
    let answer = compare_into(version, record, 765);
    if let Ok(needed) = answer {
        for capacity in [0, needed - 1, needed, needed + 1] {
            let _ = compare_into(version, record, capacity);
        }
    }
    answer
}

pub(super) fn every_code_of_up_to_7_rooms(version: Version) {
    let mut refused = [0; Refusal::ALL.len() + 1];
    for n in 1..=7 {
        for code in every_code(n) {
            if let Err(refusal) = compare(version, &record_of(n, &code)) {
                refused[usize::from(refusal.number())] += 1;
            }
        }
    }
    // Of 92, 422 and 2,074 plans 90, 394 and 1,806 are slicing.
    assert_eq!(refused[19], 2 + 28 + 268);
    assert!(refused[12] > 10_000 && refused[13] > 10_000);
}

pub(super) fn every_record_of_up_to_2_bytes(version: Version) {
    let mut accepted = 0;
    let _ = compare(version, &[]);
    for kind in 0..=255 {
        accepted += usize::from(compare(version, &[kind]).is_ok());
        for byte in 0..=255 {
            accepted += usize::from(compare(version, &[kind, byte]).is_ok());
        }
    }
    assert_eq!(accepted, 1 + 2 + 6);
}

pub(super) fn random_plans(version: Version) {
    let mut random = Random::from_seed(121);
    let mut slicing = 0;
    for round in 0..1_500 {
        let n = some_count(&mut random);
        let plan = SlicingPlan::in_turn(n, round, &mut random);
        assert!(
            compare(version, &plan.record()).is_ok(),
            "{:?}",
            plan.walked.labels
        );
        let place = random.below(n.min(251));
        if n <= 251 {
            let walked = plan.with_a_pinwheel(place, PINWHEELS[round % 2]);
            assert_eq!(compare(version, &walked.record()), Err(Refusal::NotSlicing));
        }
        let walked = list_in_turn(n, round, &mut random);
        slicing += usize::from(compare(version, &walked.record()).is_ok());
    }
    assert!((50..750).contains(&slicing), "{slicing} of 1,500 slicing");
}

pub(super) fn rows_and_combs(version: Version) {
    for cut in [Cut::Vertical, Cut::Horizontal] {
        // The stores are others from 64 rooms on.
        for n in [2, 3, 4, 5, 6, 40, 62, 63, 64, 65, 254, 255] {
            let answer = compare(version, &SlicingPlan::row(cut, n).record());
            assert_eq!(answer, Ok(n + 2));
            for ends in COMBS {
                let answer = compare(version, &SlicingPlan::comb(cut, n, ends).record());
                assert_eq!(answer, Ok(3 * n - 2));
            }
        }
    }
}

pub(super) fn where_the_runs_are_most(version: Version) {
    for first in 0..8 {
        for then in 0..8 {
            let _ = compare(version, &record_of(255, &halves(first, then)));
        }
    }
}
