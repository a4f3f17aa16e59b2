//! Lists of every length that matters: 24 for any that has not n entries.

use crate::help::at_0;
use compare::Tally;
use reference::cases::sizes::{Placing, SizedRecord};
use reference::cases::walk::{list_in_turn, Walked};
use reference::cases::Random;
use reference::Refusal;

const DIFFERS: Refusal = Refusal::LengthDiffers;

/// Lengths that are not `n`: none, one too few and too many, and such as are n in
/// 8 or 16 bits.
fn other_lengths(n: usize) -> Vec<usize> {
    let lengths = [
        0,
        1,
        n / 2,
        n - 1,
        n + 1,
        2 * n,
        255,
        256,
        n + 256,
        n + 65_536,
    ];
    let mut lengths: Vec<usize> = lengths.into_iter().filter(|&length| length != n).collect();
    lengths.sort_unstable();
    lengths.dedup();
    lengths
}

/// A plan with suited lists, all four of them.
struct Lists {
    sized: SizedRecord,
    placing: Placing,
}

impl Lists {
    fn some(n: usize, round: usize, random: &mut Random) -> Self {
        let sized = SizedRecord::some(&list_in_turn(n, round, random), random);
        let placing = Placing::some(&sized, random);
        Self { sized, placing }
    }

    /// The same with another length of one list, by its number. More entries are
    /// like the last one.
    fn with_length(&self, which: usize, length: usize) -> Self {
        let mut sized = self.sized.clone();
        let mut placing = self.placing.clone();
        match which {
            0 => resize(&mut sized.widths, length),
            1 => resize(&mut sized.heights, length),
            2 => resize(&mut placing.x, length),
            _ => resize(&mut placing.y, length),
        }
        Self { sized, placing }
    }
}

fn resize<T: Copy>(list: &mut Vec<T>, length: usize) {
    let last = *list.last().expect("a plan has rooms");
    list.resize(length, last);
}

#[test]
fn sizes_of_another_length() {
    let name = "widths or heights of another length";
    let tally = Tally::of_rounds(name, 561, 1..=255, |tally, random, n| {
        let lists = Lists::some(n, n, random);
        for which in 0..2 {
            for length in [0, n - 1, n + 1] {
                let Lists { sized, placing } = lists.with_length(which, length);
                tally.expect_refused_corners(&sized, DIFFERS);
                tally.expect_refused_slack(&sized, DIFFERS);
                tally.expect_placing(&sized, &placing, Err(DIFFERS));
            }
        }
    });
    tally.expect_refused([DIFFERS], [tally.cases()]);
    tally.finish(255 * 2 * 3 * 6);
}

#[test]
fn corners_of_another_length() {
    let name = "corners of another length";
    let tally = Tally::of_rounds(name, 562, 1..=255, |tally, random, n| {
        let lists = Lists::some(n, n, random);
        for which in 2..4 {
            for length in [0, n - 1, n + 1] {
                let Lists { sized, placing } = lists.with_length(which, length);
                tally.expect_placing(&sized, &placing, Err(DIFFERS));
            }
        }
        tally.expect_placing(&lists.sized, &lists.placing, Ok(()));
    });
    assert_eq!(tally.accepted(), 255);
    tally.finish(255 * (2 * 3 + 1));
}

#[test]
fn far_lengths_of_each_list() {
    let counts = [1, 2, 3, 7, 8, 9, 100, 127, 128, 129, 254, 255];
    let name = "lists of far lengths";
    let tally = Tally::of_rounds(name, 563, counts, |tally, random, n| {
        let lists = Lists::some(n, n, random);
        for which in 0..4 {
            for length in other_lengths(n) {
                let Lists { sized, placing } = lists.with_length(which, length);
                tally.expect_placing(&sized, &placing, Err(DIFFERS));
                if which < 2 {
                    let answer = tally.lowest_corners(&sized, [n; 2]);
                    assert_eq!(answer, Err(DIFFERS), "{which} of {length} for {n}");
                    let answer = tally.slack(&sized, [u32::MAX; 2]);
                    assert_eq!(answer, Err(DIFFERS), "{which} of {length} for {n}");
                }
            }
        }
    });
    tally.expect_refused([DIFFERS], [tally.cases()]);
    tally.finish(12 * 7 * (2 * 3 + 2));
}

/// All four lists have the same length, but another one than the record says:
/// every count for a few records.
#[test]
fn all_lists_of_every_length_but_n() {
    let mut tally = Tally::new("all lists of 0 to 260 entries");
    for n in [1, 2, 40, 254, 255u8] {
        let record = Walked::rising(n).record();
        for length in 0..=260 {
            let sizes = vec![1; length];
            let sized = SizedRecord::new(&record[..], &sizes[..], &sizes[..]);
            let fits = length == usize::from(n);
            let expected = fits.then_some(()).ok_or(DIFFERS);
            let answer = tally.lowest_corners(&sized, [300; 2]);
            assert_eq!(answer.map(drop), expected, "{length} for {n}");
            let answer = tally.slack(&sized, [300; 2]);
            assert_eq!(answer.map(drop), expected, "{length} for {n}");
            tally.expect_placing(&sized, &Placing::staircase(&sized), expected);
        }
    }
    assert_eq!(tally.accepted(), 5 * 3);
    tally.finish(5 * 261 * 3);
}

/// Every way in which each of four lists has n entries, one less or one more.
#[test]
fn every_combination_of_lengths() {
    let mut tally = Tally::new("lists one shorter or longer, all combinations");
    for n in [1, 2, 5, 255u8] {
        let record = Walked::falling(n).record();
        let n = usize::from(n);
        for code in 0..81 {
            let lengths = [1, 3, 9, 27].map(|worth| n - 1 + code / worth % 3);
            let [widths, heights, x, y] = lengths;
            let sized = SizedRecord::new(&record[..], vec![1; widths], vec![1; heights]);
            let rising: Vec<u32> = (0..=256).collect();
            let placing = Placing {
                x: vec![0; x],
                y: rising[..y].to_vec(),
            };
            let fits = lengths == [n; 4];
            let expected = fits.then_some(()).ok_or(DIFFERS);
            tally.expect_placing(&sized, &placing, expected);
        }
    }
    assert_eq!(tally.accepted(), 4);
    tally.expect_refused([DIFFERS], [4 * 80]);
    tally.finish(4 * 81);
}

/// Slices that are no part of anything.
#[test]
fn empty_lists() {
    let mut tally = Tally::new("empty lists");
    for record in [&[0x01][..], &[0x02, 0x40], &Walked::rising(255).record()] {
        let sized = SizedRecord::new(record, [], []);
        tally.expect_refused_corners(&sized, DIFFERS);
        tally.expect_refused_slack(&sized, DIFFERS);
        for n in [0, 1, 2, 255] {
            tally.expect_placing(&sized, &at_0(n), Err(DIFFERS));
        }
        let differs = Err(nenturxo::Refusal::LENGTH_DIFFERS);
        let corners = nenturxo::lowest_corners(record, &[], &[], &mut [], &mut []);
        assert_eq!(corners.map(drop), differs);
        assert_eq!(nenturxo::slack(record, &[], &[], 0, 0).map(drop), differs);
        assert_eq!(nenturxo::placing_in(record, &[], &[], &[], &[]), differs);
    }
    let no_kind = Err(nenturxo::Refusal::NO_KIND);
    let corners = nenturxo::lowest_corners(&[], &[], &[], &mut [], &mut []);
    assert_eq!(corners.map(drop), no_kind);
    assert_eq!(nenturxo::slack(&[], &[], &[], 0, 0).map(drop), no_kind);
    assert_eq!(nenturxo::placing_in(&[], &[], &[], &[], &[]), no_kind);
    tally.finish(3 * (3 + 2 + 4));
}
