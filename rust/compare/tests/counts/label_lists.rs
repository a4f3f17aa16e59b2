//! Label lists that the library accepts, counted by their rises.

use crate::help::{counts, rises_in, total};
use nenturxo::RECORD_CAPACITY;
use reference::cases::each_permutation;

/// The number of rises in a label list: of the labels that are greater than the
/// one at the position before.
fn rises_of(labels: &[u8]) -> usize {
    labels.windows(2).filter(|pair| pair[0] < pair[1]).count()
}

/// How many lists of `n` labels are accepted, by their rises, of which their
/// records must have as many.
fn counted(n: u8) -> Vec<u64> {
    let mut counted = vec![0; n.into()];
    each_permutation(n, |labels| {
        let mut record = [0; RECORD_CAPACITY];
        if let Ok(length) = nenturxo::labels_in(labels, &mut record) {
            let rises = rises_of(labels);
            assert_eq!(rises_in(&record[..length]), rises, "{labels:?}");
            counted[rises] += 1;
        }
    });
    counted
}

#[test]
fn every_permutation_of_up_to_8_labels() {
    for n in 1..=8 {
        let counted = counted(n);
        assert_eq!(counted, counts(n), "n = {n}");
        assert_eq!(counted.iter().sum::<u64>(), total(n), "n = {n}");
    }
}
