//! Output slices and records of every length that matters. That nothing around
//! the slices changes, and nothing in them on a refusal, is part of every
//! comparison.

use compare::records::record_length;
use compare::{report, GivenRecord, Tally};
use reference::cases::walk::random_list;
use reference::cases::Random;
use reference::Refusal;

/// A random record of `n` rooms.
fn some_given(n: usize, random: &mut Random) -> GivenRecord {
    GivenRecord::new(random_list(n, random).record())
}

#[test]
fn one_slice_of_every_length_near_n() {
    let name = "one slice shorter or longer";
    let tally = Tally::of_rounds(name, 71, 1..=255usize, |tally, random, n| {
        let given = some_given(n, random);
        let lengths = [0, 1, n.saturating_sub(2), n - 1, n, n + 1, n + 2, 2 * n];
        for which in 0..2 {
            for length in lengths {
                let mut capacities = [n; 2];
                capacities[which] = length;
                tally.expect_rooms(&given, capacities);
            }
        }
    });
    tally.finish(255 * 2 * 8);
}

#[test]
fn two_slices_of_all_lengths_near_n() {
    let name = "two slices shorter or longer";
    let tally = Tally::of_rounds(name, 72, 1..=255, |tally, random, n| {
        let given = some_given(n, random);
        for labels in n - 1..=n + 1 {
            for rooms in n - 1..=n + 1 {
                tally.expect_rooms(&given, [labels, rooms]);
            }
        }
    });
    // Of the three lengths two are long enough.
    assert_eq!(tally.accepted(), 255 * 4);
    tally.finish(255 * 9);
}

#[test]
fn slices_of_every_length_from_0_to_260() {
    let counts = [1, 7, 32, 100, 200, 255];
    let tally = Tally::of_rounds(
        "slices of 0 to 260 entries",
        73,
        counts,
        |tally, random, n| {
            let given = some_given(n, random);
            for length in 0..=260 {
                tally.expect_rooms(&given, [length; 2]);
            }
        },
    );
    tally.finish(6 * 261);
}

#[test]
fn refused_records_leave_slices_of_every_length_from_0_to_260() {
    let of_255 = |first: u8, last: u8| {
        let mut record = vec![0; 97];
        (record[0], record[1], record[96]) = (255, first, last);
        record
    };
    let refused = [
        (vec![], Refusal::NoKind),
        (vec![0, 0x40], Refusal::NoKind),
        (vec![2], Refusal::BodyShort),
        (vec![255; 96], Refusal::BodyShort),
        (vec![2, 0x40, 0], Refusal::BytesAfter),
        (vec![255; 98], Refusal::BytesAfter),
        (vec![2, 0x41], Refusal::SpareBit),
        (of_255(0, 0x20), Refusal::SpareBit),
        (vec![2, 0x60], Refusal::RunMissing),
        (of_255(0x60, 0), Refusal::RunMissing),
        (vec![2, 0x00], Refusal::RunsLeft),
        (of_255(0, 0), Refusal::RunsLeft),
    ]
    .map(|(record, refusal)| (GivenRecord::new(record), refusal));
    let name = "refused, with slices of 0 to 260 entries";
    Tally::refused_at_every_length(name, &refused, 260, |tally, given, length| {
        tally.record_in(given, [length; 2])
    });
}

#[test]
fn records_of_every_length_but_their_own() {
    let counts = [1, 2, 3, 4, 5, 6, 11, 12, 86, 171, 254, 255];
    let tally = Tally::of_rounds(
        "records of another length",
        74,
        counts,
        |tally, random, n| {
            let record = random_list(n, random).record();
            assert_eq!(record.len(), record_length(n));
            // Among these are 256 and 65536 more than the length it should have.
            for added in [1, 2, 255, 256, 257, 65_535, 65_536, 65_537] {
                let longer = [&record[..], &vec![0; added]].concat();
                tally.expect_refused_record(&longer, Refusal::BytesAfter);
            }
            for length in 1..record.len() {
                tally.expect_refused_record(&record[..length], Refusal::BodyShort);
            }
            tally.expect_refused_record(&record[..0], Refusal::NoKind);
        },
    );
    tally.finish(3 * 12 * 9);
}

#[test]
fn slices_that_are_no_part_of_anything() {
    let mut cases = 0;
    let refusals = [
        (vec![], nenturxo::Refusal::NO_KIND),
        (vec![2], nenturxo::Refusal::BODY_SHORT),
        (vec![1, 0], nenturxo::Refusal::BYTES_AFTER),
        (vec![1], nenturxo::Refusal::SLICE_SHORT),
        (vec![2, 0x40], nenturxo::Refusal::SLICE_SHORT),
    ];
    for (record, refusal) in refusals {
        let answer = nenturxo::record_in(&record, &mut [], &mut []);
        assert_eq!(answer, Err(refusal), "{record:?}");
        cases += 1;
    }
    report(format_args!("{cases} cases with empty slices"));
    assert_eq!(cases, 5);
}
