//! Lists and record slices of every length that matters. That nothing around
//! the slices changes, and nothing in them on a refusal, is part of every
//! comparison.

use compare::records::record_length;
use compare::Tally;
use reference::cases::walk::random_list;
use reference::Refusal;

#[test]
fn record_slices_of_every_length_from_0_to_100() {
    let name = "record slices of 0 to 100 bytes";
    let tally = Tally::of_rounds(name, 21, 1..=255, |tally, random, n| {
        let labels = random_list(n, random).labels;
        for capacity in 0..=100 {
            tally.expect_length(&labels, capacity);
        }
    });
    tally.finish(255 * 101);
}

#[test]
fn refused_lists_leave_slices_of_every_length_from_0_to_100() {
    // 255 rising labels with other entries from some place on.
    let changed = |place: usize, entries: &[u8]| {
        let mut labels: Vec<u8> = (1..=255).collect();
        labels.splice(place..(place + entries.len()).min(255), entries.to_vec());
        labels
    };
    let refused = [
        (vec![], Refusal::ListLength),
        (vec![0], Refusal::LabelOutside),
        (vec![2], Refusal::LabelOutside),
        (vec![1, 1], Refusal::LabelTwice),
        (vec![2, 4, 1, 3], Refusal::BarredPattern),
        (vec![3, 1, 4, 2], Refusal::BarredPattern),
        (changed(255, &[1]), Refusal::ListLength),
        (changed(254, &[0]), Refusal::LabelOutside),
        (changed(254, &[1]), Refusal::LabelTwice),
        (changed(0, &[2, 4, 1, 3]), Refusal::BarredPattern),
        (changed(251, &[254, 252, 255, 253]), Refusal::BarredPattern),
    ];
    let name = "refused, with slices of 0 to 100 bytes";
    Tally::refused_at_every_length(name, &refused, 100, |tally, labels, capacity| {
        tally.labels_in(labels, capacity)
    });
}

#[test]
fn empty_lists_are_1() {
    let mut tally = Tally::new("empty lists");
    for capacity in 0..=100 {
        tally.expect_refusal(&[], capacity, Refusal::ListLength);
    }
    // Also where the slices are no part of anything.
    let answer = nenturxo::labels_in(&[], &mut []);
    assert_eq!(answer, Err(nenturxo::Refusal::LIST_LENGTH));
    tally.finish(101);
}

#[test]
fn lists_of_over_255_entries_are_1_whatever_they_hold() {
    let mut tally = Tally::new("lists of over 255 entries");
    // Among these are 256 and 65536 more than a length that would be accepted.
    let lengths = [
        256, 257, 258, 261, 300, 511, 512, 517, 1000, 65_535, 65_536, 65_541,
    ];
    for length in lengths {
        let rising: Vec<u8> = (1..=255).cycle().take(length).collect();
        let modulo: Vec<u8> = (0..=255).cycle().take(length).collect();
        for labels in [rising, modulo, vec![0; length], vec![1; length]] {
            for capacity in [0, 1, 96, 97, 100] {
                tally.expect_refusal(&labels, capacity, Refusal::ListLength);
            }
        }
    }
    tally.finish(lengths.len() * 4 * 5);
}

#[test]
fn lists_of_254_and_255_entries_are_not_1() {
    let mut tally = Tally::new("lists of 254 and 255 entries");
    for n in [254, 255u8] {
        let length = usize::from(n);
        let rising: Vec<u8> = (1..=n).collect();
        assert_eq!(tally.labels_in(&rising, 97), Ok(record_length(length)));
        tally.expect_refusal(&vec![0; length], 97, Refusal::LabelOutside);
        tally.expect_refusal(&vec![n; length], 97, Refusal::LabelTwice);
        tally.expect_refusal(&rising, record_length(length) - 1, Refusal::SliceShort);
    }
    tally.expect_refusal(&[255; 254], 97, Refusal::LabelOutside);
    tally.finish(2 * 4 + 1);
}
