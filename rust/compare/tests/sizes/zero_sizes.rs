//! A size of 0 anywhere: 25, and what comes before it and after it.

use crate::help::{expect_refused, REFUSED};
use compare::Tally;
use reference::cases::sizes::{every_sizes, SizedRecord};
use reference::cases::walk::{list_in_turn, Walked};
use reference::Refusal;

const ZERO: Refusal = Refusal::ZeroSize;

/// A list of sizes, by its number: widths or heights.
fn sizes_of(sized: &mut SizedRecord, which: usize) -> &mut [u16] {
    match which {
        0 => &mut sized.widths,
        _ => &mut sized.heights,
    }
}

#[test]
fn at_the_first_a_middle_and_the_last_position() {
    let name = "a size of 0, first, in the middle and last";
    let tally = Tally::of_rounds(name, 571, 1..=255, |tally, random, n| {
        let sized = SizedRecord::some(&list_in_turn(n, n, random), random);
        for which in 0..2 {
            for place in [0, n / 2, n - 1] {
                let mut zero = sized.clone();
                sizes_of(&mut zero, which)[place] = 0;
                expect_refused(tally, &zero, n, ZERO);
            }
        }
    });
    tally.expect_refused([ZERO], [tally.cases()]);
    tally.finish(255 * 2 * 3 * REFUSED);
}

#[test]
fn at_every_position() {
    let name = "a size of 0 at every position";
    let counts = [1, 2, 3, 4, 5, 7, 8, 9, 15, 16, 17, 31, 32, 33, 64, 254, 255];
    let tally = Tally::of_rounds(name, 572, counts, |tally, random, n| {
        let sized = SizedRecord::some(&list_in_turn(n, n, random), random);
        for which in 0..2 {
            for place in 0..n {
                let mut zero = sized.clone();
                sizes_of(&mut zero, which)[place] = 0;
                let answer = tally.lowest_corners(&zero, [n; 2]);
                assert_eq!(answer, Err(ZERO), "{zero:?}");
                assert_eq!(tally.slack(&zero, [7; 2]), Err(ZERO), "{zero:?}");
            }
        }
    });
    tally.expect_refused([ZERO], [tally.cases()]);
    tally.finish(2 * 2 * counts.iter().sum::<usize>());
}

#[test]
fn many_and_all_sizes_of_0() {
    let name = "many sizes of 0";
    let tally = Tally::of_rounds(name, 573, 1..=60, |tally, random, n| {
        let n = if n > 50 { 255 } else { n };
        let plan = list_in_turn(n, n, random);
        expect_refused(tally, &SizedRecord::equal(&plan, 0), n, ZERO);
        let mut zero = SizedRecord::some(&plan, random);
        zero.widths.fill(0);
        expect_refused(tally, &zero, n, ZERO);
        let mut zero = SizedRecord::some(&plan, random);
        zero.heights.fill(0);
        expect_refused(tally, &zero, n, ZERO);
        let mut zero = SizedRecord::some(&plan, random);
        for _ in 0..random.between(1, 2 * n) {
            let which = random.below(2);
            sizes_of(&mut zero, which)[random.below(n)] = 0;
        }
        expect_refused(tally, &zero, n, ZERO);
    });
    tally.expect_refused([ZERO], [tally.cases()]);
    tally.finish(60 * 4 * REFUSED);
}

/// Every list of sizes of 0 and 1: only one of them has no 0.
#[test]
fn every_list_of_0_and_1_for_up_to_4_rooms() {
    let mut tally = Tally::new("lists of 0 and 1 as sizes");
    for n in 1..=4u8 {
        let record = Walked::rising(n).record();
        let n = usize::from(n);
        // The widths and then the heights.
        for sizes in every_sizes(2, 2 * n) {
            let sizes: Vec<u16> = sizes.iter().map(|size| size - 1).collect();
            let (widths, heights) = sizes.split_at(n);
            let sized = SizedRecord::new(&record[..], widths, heights);
            let expected = match sizes.contains(&0) {
                true => Err(ZERO),
                false => Ok(n),
            };
            let answer = tally.lowest_corners(&sized, [n; 2]);
            assert_eq!(answer, expected, "{sized:?}");
            let answer = tally.slack(&sized, [0; 2]);
            assert_eq!(answer.map(drop), expected.map(drop), "{sized:?}");
        }
    }
    assert_eq!(tally.accepted(), 2 * 4);
    tally.finish(2 * (4 + 16 + 64 + 256));
}
