//! Two causes at once: each refusal comes before those that are named after it.
//! The order is 9, 10, 11, 14, 12, 13, then 24, 25, 26, and 15 last.

use crate::help::{at_0, expect_refused, REFUSED};
use compare::records::refused_records;
use compare::Tally;
use reference::cases::sizes::{Placing, SizedRecord};
use reference::cases::walk::Walked;
use reference::Refusal;

/// How many [`refused_records`] there are.
const RECORDS: usize = 6 + 13;

/// The record's kind, as a number of rooms.
fn kind(record: &[u8]) -> usize {
    record.first().copied().map_or(0, usize::from)
}

#[test]
fn a_record_comes_before_the_lengths_of_lists() {
    let mut tally = Tally::new("9 to 14 and 24");
    for (record, refusal) in refused_records() {
        let n = kind(&record);
        for [widths, heights] in [[0, 0], [n + 1, n], [n, n + 1], [n + 1, n + 1], [300, 0]] {
            let sized = SizedRecord::new(&record[..], vec![1; widths], vec![1; heights]);
            expect_refused(&mut tally, &sized, n, refusal);
            expect_refused(&mut tally, &sized, n + 1, refusal);
        }
    }
    tally.expect_refused([Refusal::LengthDiffers], [0]);
    tally.finish(RECORDS * 5 * 2 * REFUSED);
}

/// The sizes and the corners are as many as the kind says; some are 0, and the
/// corners are all at 0 in one case.
#[test]
fn a_record_comes_before_sizes_of_0_and_broken_relations() {
    let mut tally = Tally::new("9 to 14, and 25, 26 or 15");
    for (record, refusal) in refused_records() {
        let n = kind(&record);
        for (width, height) in [(0, 0), (0, 1), (1, 0), (1, 1)] {
            let sized = SizedRecord::new(&record[..], vec![width; n], vec![height; n]);
            expect_refused(&mut tally, &sized, n, refusal);
        }
    }
    for refusal in [Refusal::ZeroSize, Refusal::RelationBroken] {
        tally.expect_refused([refusal], [0]);
    }
    tally.expect_refused([Refusal::SliceShort], [0]);
    tally.finish(RECORDS * 4 * REFUSED);
}

/// Counts of rooms for accepted plans.
const COUNTS: [u8; 6] = [1, 2, 3, 9, 254, 255];

/// In the list of another length or in the other one.
#[test]
fn the_length_of_a_list_of_sizes_comes_before_sizes_of_0() {
    let mut tally = Tally::new("24 for sizes, and 25, 26 or 15");
    for count in COUNTS {
        let record = Walked::rising(count).record();
        let n = usize::from(count);
        for size in [0, 1] {
            for [widths, heights] in [[n - 1, n], [n, n - 1], [n + 1, n], [n, n + 1], [0, 0]] {
                for (width, height) in [(0, 0), (0, size), (size, 0), (size, size)] {
                    let (widths, heights) = (vec![width; widths], vec![height; heights]);
                    let sized = SizedRecord::new(&record[..], widths, heights);
                    expect_refused(&mut tally, &sized, n, Refusal::LengthDiffers);
                }
            }
        }
    }
    tally.expect_refused([Refusal::LengthDiffers], [tally.cases()]);
    tally.finish(6 * 2 * 5 * 4 * REFUSED);
}

/// The corners of a placing are lists too: 24 comes before 25 in the sizes, and
/// before 26 for what corners there are.
#[test]
fn the_length_of_a_list_of_corners_comes_before_sizes_of_0() {
    let mut tally = Tally::new("24 for corners, and 25 or 26");
    let differs = Err(Refusal::LengthDiffers);
    for count in COUNTS {
        let n = usize::from(count);
        for size in [0, 1] {
            let sized = SizedRecord::equal(&Walked::falling(count), size);
            for [x, y] in [
                [n - 1, n],
                [n, n - 1],
                [n + 1, n],
                [n, n + 1],
                [0, 0],
                [0, n],
            ] {
                let placing = Placing {
                    x: vec![0; x],
                    y: vec![0; y],
                };
                tally.expect_placing(&sized, &placing, differs);
            }
        }
        // One size of 0 alone, and lists of corners that would be honoured.
        let mut zero = SizedRecord::equal(&Walked::falling(count), 1);
        let placing = Placing::staircase(&zero);
        zero.heights[n / 2] = 0;
        let shorter = Placing {
            x: placing.x[..n - 1].to_vec(),
            ..placing.clone()
        };
        tally.expect_placing(&zero, &shorter, differs);
        tally.expect_placing(&zero, &placing, Err(Refusal::ZeroSize));
    }
    tally.finish(6 * (2 * 6 + 2));
}

/// With a size of 0 in one list and all corners at 0, or with no slices.
#[test]
fn a_size_of_0_comes_before_a_broken_relation_and_short_slices() {
    let mut tally = Tally::new("25, and 26 or 15");
    let zero = Refusal::ZeroSize;
    for count in COUNTS {
        let n = usize::from(count);
        for place in [0, n / 2, n - 1] {
            for plan in [Walked::rising(count), Walked::falling(count)] {
                let mut sized = SizedRecord::equal(&plan, 9);
                sized.widths[place] = 0;
                expect_refused(&mut tally, &sized, n, zero);
                let mut sized = SizedRecord::equal(&plan, 9);
                sized.heights[place] = 0;
                tally.expect_placing(&sized, &at_0(n), Err(zero));
                for capacities in [[n - 1, n], [n, n - 1], [0, 0], [n - 1, n - 1]] {
                    let answer = tally.lowest_corners(&sized, capacities);
                    assert_eq!(answer, Err(zero), "{sized:?}");
                }
            }
        }
    }
    tally.expect_refused([zero], [tally.cases()]);
    tally.finish(6 * 3 * 2 * (REFUSED + 1 + 4));
}

/// What is accepted but for the slices is 15, and but for the corners 26; and
/// these are of two calls.
#[test]
fn what_is_left() {
    let mut tally = Tally::new("15 alone, and 26 alone");
    for count in COUNTS.into_iter().filter(|&count| count > 1) {
        let n = usize::from(count);
        let sized = SizedRecord::equal(&Walked::rising(count), 9);
        for capacities in [[n - 1, n], [n, n - 1], [0, 0], [n + 9, 0]] {
            let answer = tally.lowest_corners(&sized, capacities);
            assert_eq!(answer, Err(Refusal::SliceShort), "{capacities:?}");
        }
        tally.expect_placing(&sized, &at_0(n), Err(Refusal::RelationBroken));
        assert_eq!(tally.slack(&sized, [0, 9]), Ok((-9 * i64::from(count), 0)));
    }
    tally.expect_refused([Refusal::SliceShort, Refusal::RelationBroken], [20, 5]);
    tally.finish(5 * 6);
}
