//! Output slices and records of every length that matters. That nothing around
//! the slices changes, and nothing in them on a refusal, is part of every
//! comparison.

use compare::records::record_length;
use compare::{report, Tally};
use reference::cases::sizes::SizedRecord;
use reference::cases::walk::{list_in_turn, random_list};
use reference::cases::Random;
use reference::Refusal;

/// A random plan of `n` rooms with sizes.
fn some_sized(n: usize, random: &mut Random) -> SizedRecord {
    SizedRecord::some(&list_in_turn(n, n, random), random)
}

#[test]
fn both_slices_of_all_lengths_near_n() {
    let name = "slices for corners shorter or longer";
    let tally = Tally::of_rounds(name, 581, 1..=255, |tally, random, n| {
        let sized = some_sized(n, random);
        for x in n - 1..=n + 1 {
            for y in n - 1..=n + 1 {
                tally.expect_fitting_corners(&sized, [x, y]);
            }
        }
    });
    // Of the three lengths two are long enough.
    assert_eq!(tally.accepted(), 255 * 4);
    tally.expect_refused([Refusal::SliceShort], [255 * 5]);
    tally.finish(255 * 9);
}

#[test]
fn one_slice_of_every_length_near_n() {
    let name = "one slice for corners shorter or longer";
    let tally = Tally::of_rounds(name, 582, 1..=255usize, |tally, random, n| {
        let sized = some_sized(n, random);
        let lengths = [0, 1, n.saturating_sub(2), n + 2, 2 * n, 300, 1_000];
        for which in 0..2 {
            for length in lengths {
                let mut capacities = [n; 2];
                capacities[which] = length;
                tally.expect_fitting_corners(&sized, capacities);
            }
        }
    });
    tally.finish(255 * 2 * 7);
}

#[test]
fn slices_of_every_length_from_0_to_260() {
    let counts = [1, 7, 32, 100, 200, 255];
    let name = "slices for corners of 0 to 260 entries";
    let tally = Tally::of_rounds(name, 583, counts, |tally, random, n| {
        let sized = some_sized(n, random);
        for length in 0..=260 {
            tally.expect_fitting_corners(&sized, [length; 2]);
        }
    });
    tally.finish(6 * 261);
}

#[test]
fn refused_input_leaves_slices_of_every_length_from_0_to_260() {
    let two = |record: &[u8]| SizedRecord::new(record, [1, 1], [1, 1]);
    let large = random_list(255, &mut Random::from_seed(584)).record();
    let of_255 = |widths: &[u16], heights: &[u16]| SizedRecord::new(&large[..], widths, heights);
    let mut zero = [1; 255];
    zero[254] = 0;
    let refused = [
        (two(&[]), Refusal::NoKind),
        (two(&[0, 0x40]), Refusal::NoKind),
        (two(&[2]), Refusal::BodyShort),
        (two(&[2, 0x40, 0]), Refusal::BytesAfter),
        (two(&[2, 0x41]), Refusal::SpareBit),
        (two(&[2, 0x60]), Refusal::RunMissing),
        (two(&[2, 0x00]), Refusal::RunsLeft),
        (of_255(&[1; 254], &[1; 255]), Refusal::LengthDiffers),
        (of_255(&[1; 255], &[1; 256]), Refusal::LengthDiffers),
        (of_255(&zero, &[1; 255]), Refusal::ZeroSize),
        (of_255(&[1; 255], &zero), Refusal::ZeroSize),
    ];
    let name = "refused, with slices of 0 to 260 entries";
    Tally::refused_at_every_length(name, &refused, 260, |tally, sized, length| {
        tally.lowest_corners(sized, [length; 2])
    });
}

#[test]
fn records_of_every_length_but_their_own() {
    let counts = [1, 2, 3, 4, 5, 6, 11, 12, 86, 171, 254, 255];
    let name = "records with sizes, of another length";
    let tally = Tally::of_rounds(name, 585, counts, |tally, random, n| {
        let sized = some_sized(n, random);
        assert_eq!(sized.record.len(), record_length(n));
        let with = |record: &[u8]| SizedRecord {
            record: record.to_vec(),
            ..sized.clone()
        };
        let mut expect = |record: &[u8], refusal| {
            let sized = with(record);
            tally.expect_refused_corners(&sized, refusal);
            tally.expect_refused_slack(&sized, refusal);
        };
        // Among these are 256 and 65536 more than the length it should have.
        for added in [1, 2, 255, 256, 257, 65_535, 65_536, 65_537] {
            let longer = [&sized.record[..], &vec![0; added]].concat();
            expect(&longer, Refusal::BytesAfter);
        }
        for length in 1..sized.record.len() {
            expect(&sized.record[..length], Refusal::BodyShort);
        }
        expect(&[], Refusal::NoKind);
    });
    tally.finish(5 * 12 * 9);
}

#[test]
fn slices_that_are_no_part_of_anything() {
    let cases = [
        (&[][..], &[][..], nenturxo::Refusal::NO_KIND),
        (&[2], &[1, 1], nenturxo::Refusal::BODY_SHORT),
        (&[1, 0], &[1], nenturxo::Refusal::BYTES_AFTER),
        (&[1], &[], nenturxo::Refusal::LENGTH_DIFFERS),
        (&[1], &[0], nenturxo::Refusal::ZERO_SIZE),
        (&[1], &[1], nenturxo::Refusal::SLICE_SHORT),
        (&[2, 0x40], &[1, 1], nenturxo::Refusal::SLICE_SHORT),
    ];
    for (record, sizes, refusal) in cases {
        let answer = nenturxo::lowest_corners(record, sizes, sizes, &mut [], &mut []);
        assert_eq!(answer, Err(refusal), "{record:?}");
    }
    report(format_args!("{} cases with empty slices", cases.len()));
}
