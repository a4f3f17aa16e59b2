//! Slices and records of every length that matters. That nothing around the
//! slices changes, and nothing in them on a refusal, is part of every
//! comparison.

use compare::{report, GivenTree, Tally};
use reference::cases::slicing::{SlicingPlan, COMBS, PINWHEELS};
use reference::{Cut, Refusal};

/// The record of a plan, and the length of its tree.
fn given(plan: &SlicingPlan) -> (GivenTree, usize) {
    let length = plan.tree.bytes().len();
    (GivenTree::new(plan.record()), length)
}

#[test]
fn slices_of_every_length_near_the_needed_one() {
    let name = "slices one byte shorter or longer";
    let tally = Tally::of_rounds(name, 331, 1..=255usize, |tally, random, n| {
        let (given, needed) = given(&SlicingPlan::in_turn(n, n, random));
        assert!((n..=3 * n - 2).contains(&needed));
        let short = [0, needed / 2, needed.saturating_sub(2), needed - 1];
        let long = [needed, needed + 1, needed + 2, 764, 2_000];
        for capacity in short.into_iter().chain(long) {
            tally.expect_tree_length(&given, needed, capacity);
        }
    });
    assert_eq!(tally.accepted(), 255 * 5);
    tally.expect_refused([Refusal::SliceShort], [255 * 4]);
    tally.finish(255 * 9);
}

#[test]
fn slices_of_every_length_from_0_to_766() {
    let comb = |ends| SlicingPlan::comb(Cut::Vertical, 255, ends);
    let plans = [
        SlicingPlan::comb(Cut::Vertical, 1, COMBS[0]),
        SlicingPlan::row(Cut::Horizontal, 2),
        SlicingPlan::row(Cut::Vertical, 255),
        SlicingPlan::comb(Cut::Horizontal, 64, COMBS[3]),
        comb(COMBS[0]),
        comb(COMBS[1]),
    ];
    let mut tally = Tally::new("slices of 0 to 766 bytes");
    for (given, needed) in plans.iter().map(given) {
        for capacity in 0..=766 {
            tally.expect_tree_length(&given, needed, capacity);
        }
    }
    tally.finish(plans.len() * 767);
}

#[test]
fn refused_records_leave_slices_of_every_length_from_0_to_766() {
    let of_255 = |first: u8, last: u8| {
        let mut record = vec![0; 97];
        (record[0], record[1], record[96]) = (255, first, last);
        record
    };
    let comb = SlicingPlan::comb(Cut::Vertical, 251, COMBS[3]);
    let planted = |place: usize| comb.with_a_pinwheel(place, PINWHEELS[place % 2]).record();
    let refused = [
        (vec![], Refusal::NoKind),
        (vec![0, 0x40], Refusal::NoKind),
        (vec![2], Refusal::BodyShort),
        (vec![255; 96], Refusal::BodyShort),
        (vec![2, 0x40, 0], Refusal::BytesAfter),
        (vec![255; 98], Refusal::BytesAfter),
        (vec![2, 0x41], Refusal::SpareBit),
        (of_255(0, 0x20), Refusal::SpareBit),
        (vec![2, 0x60], Refusal::RunMissing),
        (of_255(0x60, 0), Refusal::RunMissing),
        (vec![2, 0x00], Refusal::RunsLeft),
        (of_255(0, 0), Refusal::RunsLeft),
        (vec![5, 0x31, 0x70], Refusal::NotSlicing),
        (planted(0), Refusal::NotSlicing),
        (planted(125), Refusal::NotSlicing),
        (planted(250), Refusal::NotSlicing),
    ]
    .map(|(record, refusal)| (GivenTree::new(record), refusal));
    let name = "refused, with slices of 0 to 766 bytes";
    Tally::refused_at_every_length(name, &refused, 766, |tally, given, length| {
        tally.tree(given, length)
    });
}

#[test]
fn records_of_every_length_but_their_own() {
    let counts = [1, 2, 3, 4, 5, 6, 11, 12, 86, 171, 254, 255];
    let name = "records of another length";
    let tally = Tally::of_rounds(name, 332, counts, |tally, random, n| {
        let record = SlicingPlan::in_turn(n, n, random).record();
        // Among these are 256 and 65536 more than the length it should have.
        for added in [1, 2, 255, 256, 257, 65_535, 65_536, 65_537] {
            let longer = [&record[..], &vec![0; added]].concat();
            tally.expect_refused_tree(&longer, Refusal::BytesAfter);
        }
        for length in 1..record.len() {
            tally.expect_refused_tree(&record[..length], Refusal::BodyShort);
        }
        tally.expect_refused_tree(&record[..0], Refusal::NoKind);
    });
    tally.finish(3 * 12 * 9);
}

#[test]
fn slices_that_are_no_part_of_anything() {
    let refusals = [
        (&[][..], nenturxo::Refusal::NO_KIND),
        (&[2], nenturxo::Refusal::BODY_SHORT),
        (&[1, 0], nenturxo::Refusal::BYTES_AFTER),
        (&[5, 0x31, 0x70], nenturxo::Refusal::NOT_SLICING),
        (&[1], nenturxo::Refusal::SLICE_SHORT),
        (&[2, 0x40], nenturxo::Refusal::SLICE_SHORT),
    ];
    for (record, refusal) in refusals {
        assert_eq!(nenturxo::tree(record, &mut []), Err(refusal), "{record:?}");
    }
    report(format_args!("{} records with empty slices", refusals.len()));
}
