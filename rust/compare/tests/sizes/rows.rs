//! Plans whose corners are as far as can be, and plans with as many runs.

use compare::Tally;
use reference::cases::sizes::{Placing, SizedRecord};
use reference::cases::slicing::{SlicingPlan, COMBS};
use reference::cases::walk::Walked;
use reference::{Cut, Refusal};

/// Where each of so many rooms of this size starts in a row, and where the last
/// one ends.
fn in_a_row(n: u8, size: u16) -> (Vec<u32>, u32) {
    let start = |rooms: u32| rooms * u32::from(size);
    let n = u32::from(n);
    ((0..n).map(start).collect(), start(n))
}

#[test]
fn rows_and_piles_of_every_count() {
    let mut tally = Tally::new("rows and piles");
    for n in 1..=255u8 {
        for size in [1, 2, 256, 65_535] {
            let (starts, end) = in_a_row(n, size);
            let none = vec![0; usize::from(n)];
            let across = u32::from(size);

            let row = SizedRecord::equal(&Walked::rising(n), size);
            let (x, y) = (starts.clone(), none.clone());
            assert_eq!(tally.expect_corners(&row), Placing { x, y });
            tally.expect_needed(&row, [end, across]);

            let pile = SizedRecord::equal(&Walked::falling(n), size);
            let (x, y) = (none, starts);
            assert_eq!(tally.expect_corners(&pile), Placing { x, y });
            tally.expect_needed(&pile, [across, end]);
        }
    }
    tally.expect_refused([Refusal::SliceShort], [255 * 4 * 2]);
    tally.finish(255 * 4 * 2 * 8);
}

#[test]
fn a_row_of_255_rooms_of_the_greatest_size_ends_below_2_to_the_24() {
    let mut tally = Tally::new("255 rooms of 65,535 in a row");
    let row = SizedRecord::equal(&Walked::rising(255), 65_535);
    let lowest = tally.expect_corners(&row);
    assert_eq!(lowest.x[254], 16_645_890);
    assert_eq!(tally.slack(&row, [1 << 24, 1 << 16]), Ok((65_791, 1)));
    tally.expect_needed(&row, [16_711_425, 65_535]);
    tally.expect_placing(&row, &lowest, Ok(()));
    tally.finish(3 + 1 + 5 + 1);
}

/// In a row one room after another has the greatest size, or all but it.
#[test]
fn one_large_or_one_small_room_of_a_row() {
    let mut tally = Tally::new("rows with one large or one small room");
    for n in [2, 3, 100, 255u8] {
        for (most, one) in [(1, 65_535), (65_535, 1)] {
            for place in [0, usize::from(n) / 2, usize::from(n) - 1] {
                let mut widths = vec![most; usize::from(n)];
                widths[place] = one;
                let (starts, end) = in_a_row(n, most);
                let moved = u32::from(one).wrapping_sub(u32::from(most));
                let start = |(at, start): (usize, u32)| match at > place {
                    true => start.wrapping_add(moved),
                    false => start,
                };
                let x = starts.into_iter().enumerate().map(start).collect();
                let y = vec![0; usize::from(n)];
                let heights = vec![3; usize::from(n)];
                let row = SizedRecord::new(Walked::rising(n).record(), widths, heights);
                assert_eq!(tally.expect_corners(&row), Placing { x, y });
                tally.expect_needed(&row, [end.wrapping_add(moved), 3]);
            }
        }
    }
    tally.finish(4 * 2 * 3 * 8);
}

/// Plans of 255 rooms with as many runs as there can be, and such as are cut a
/// room at a time, whose relations change all the way.
#[test]
fn many_runs_and_deep_combs() {
    let name = "plans with 128 runs, and combs";
    let combs = [Cut::Vertical, Cut::Horizontal]
        .into_iter()
        .flat_map(|cut| {
            let comb = move |ends: &&_| SlicingPlan::comb(cut, 255, ends).walked;
            COMBS.iter().map(comb)
        });
    let plans: Vec<Walked> = Walked::with_128_runs().into_iter().chain(combs).collect();
    let count = plans.len();
    let tally = Tally::of_rounds(name, 541, plans, |tally, random, walked| {
        for round in 0..4 {
            let sized = match round {
                0 => SizedRecord::equal(&walked, 1),
                1 => SizedRecord::equal(&walked, 65_535),
                _ => SizedRecord::some(&walked, random),
            };
            let lowest = tally.expect_corners(&sized);
            tally.expect_placing(&sized, &lowest, Ok(()));
            let mut placing = Placing::some(&sized, random);
            tally.expect_placing(&sized, &placing, Ok(()));
            placing.break_a_relation(&sized, random);
            tally.expect_placing(&sized, &placing, Err(Refusal::RelationBroken));
        }
    });
    assert_eq!(count, 2 + 2 * COMBS.len());
    tally.finish(count * 4 * 6);
}
