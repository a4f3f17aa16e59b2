//! Every plan of up to 5 rooms with every list of a few sizes, and every placing
//! of up to 3 rooms in a small box.

use crate::help::{each_plan, furthest_ends, is_no_lower};
use compare::Tally;
use reference::cases::sizes::{every_sizes, Placing, SizedRecord};
use reference::cases::walk::Walked;
use reference::cases::{every_list, BAXTER_NUMBERS};
use reference::Refusal;

/// Calls `visit` with every plan of `n` rooms, with every list of widths and
/// every list of heights out of a few sizes.
fn each_sized(n: usize, sizes: &[u16], mut visit: impl FnMut(&SizedRecord)) {
    let greatest = u8::try_from(sizes.len()).expect("a few sizes");
    let lists: Vec<Vec<u16>> = every_sizes(greatest, n)
        .map(|list| list.iter().map(|&at| sizes[usize::from(at) - 1]).collect())
        .collect();
    each_plan(n, |plan| {
        for widths in &lists {
            for heights in &lists {
                let record = plan.record();
                visit(&SizedRecord::new(record, &widths[..], &heights[..]));
            }
        }
    });
}

/// Compares corners and slack of all such plans of up to `most` rooms.
fn compare_all(name: &'static str, most: usize, sizes: &[u16]) {
    let mut tally = Tally::new(name);
    let mut plans = 0;
    for n in 1..=most {
        each_sized(n, sizes, |sized| {
            let lowest = tally.expect_corners(sized);
            tally.expect_needed(sized, furthest_ends(sized, &lowest));
            tally.expect_placing(sized, &lowest, Ok(()));
            plans += 1;
        });
    }
    let lists = |n: usize| sizes.len().pow(2 * u32::try_from(n).expect("a few rooms"));
    let expected: usize = (1..=most).map(|n| BAXTER_NUMBERS[n - 1] * lists(n)).sum();
    assert_eq!(plans, expected);
    tally.expect_refused([Refusal::SliceShort], [plans]);
    tally.finish(plans * (3 + 5 + 1));
}

#[test]
fn plans_of_up_to_3_rooms_with_sizes_of_1_to_4() {
    compare_all("plans of up to 3 rooms, sizes 1 to 4", 3, &[1, 2, 3, 4]);
}

#[test]
fn plans_of_up_to_4_rooms_with_the_least_size_and_the_greatest() {
    compare_all(
        "plans of up to 4 rooms, sizes 1 and 65,535",
        4,
        &[1, 65_535],
    );
}

/// Of 5 rooms too, with every list of widths, and the same sizes as heights from
/// the last one to the first.
#[test]
fn plans_of_up_to_5_rooms_with_sizes_of_1_to_3() {
    let mut tally = Tally::new("plans of up to 5 rooms, sizes 1 to 3");
    for n in 1..=5 {
        let lists: Vec<Vec<u16>> = every_sizes(3, n).collect();
        each_plan(n, |plan| {
            for widths in &lists {
                let heights: Vec<u16> = widths.iter().rev().copied().collect();
                let sized = SizedRecord::new(plan.record(), &widths[..], heights);
                let lowest = tally.expect_corners(&sized);
                tally.expect_needed(&sized, furthest_ends(&sized, &lowest));
            }
        });
    }
    let plans = 3 + 2 * 9 + 6 * 27 + 22 * 81 + 92 * 243;
    tally.expect_refused([Refusal::SliceShort], [plans]);
    tally.finish(8 * plans);
}

/// Compares every placing with its corners at 0 to `greatest`. What is accepted
/// is no lower than the lowest corners, which are compared in three cases.
fn every_placing(tally: &mut Tally, sized: &SizedRecord, greatest: u8) {
    let n = sized.widths.len();
    let lowest = tally.expect_corners(sized);
    let numbers = 2 * u32::try_from(n).expect("a few rooms");
    for corners in every_list(greatest, numbers) {
        let corners: Vec<u32> = corners.into_iter().map(u32::from).collect();
        let (x, y) = corners.split_at(n);
        let (x, y) = (x.to_vec(), y.to_vec());
        let placing = Placing { x, y };
        if tally.placing_in(sized, &placing).is_ok() {
            assert!(is_no_lower(&placing, &lowest), "{sized:?}, {placing:?}");
        }
    }
}

#[test]
fn every_placing_of_2_rooms_in_a_box_of_6() {
    let mut tally = Tally::new("placings of up to 2 rooms in a box of 6");
    each_sized(1, &[1, 2], |sized| every_placing(&mut tally, sized, 5));
    assert_eq!(tally.accepted(), 4 * (2 + 36), "one room stands anywhere");
    each_sized(2, &[1, 2], |sized| every_placing(&mut tally, sized, 5));
    tally.expect_often(10_000, &[Refusal::RelationBroken]);
    // Of 36 pairs of starts 15 are far enough apart for a size of 1, 10 for 2.
    let of_2 = 2 * 16 * 2 + 2 * 8 * 36 * (15 + 10);
    assert_eq!(tally.accepted(), 4 * (2 + 36) + of_2);
    tally.finish(4 * (3 + 36) + 2 * 16 * (3 + 36 * 36));
}

#[test]
fn every_placing_of_3_rooms_in_a_box_of_4() {
    let mut tally = Tally::new("placings of 3 rooms in a box of 4");
    each_plan(3, |plan| {
        for sizes in every_sizes(2, 3) {
            let sized = SizedRecord::new(plan.record(), &sizes[..], &sizes[..]);
            every_placing(&mut tally, &sized, 3);
        }
    });
    tally.expect_often(100_000, &[Refusal::RelationBroken]);
    assert!(tally.accepted() > 5_000, "{}", tally.accepted());
    tally.finish(6 * 8 * (3 + 4096));
}

/// Of 4 rooms every placing in which the corners one way are the lowest ones.
#[test]
fn every_placing_of_4_rooms_in_a_box_of_5_one_way() {
    let mut tally = Tally::new("placings of 4 rooms in a box of 5, one way");
    let mut compare = |plan: &Walked| {
        let sized = SizedRecord::equal(plan, 1);
        let lowest = tally.expect_corners(&sized);
        for starts in every_list(4, 4) {
            let starts: Vec<u32> = starts.into_iter().map(u32::from).collect();
            let (x, y) = (starts.clone(), lowest.y.clone());
            let _ = tally.placing_in(&sized, &Placing { x, y });
            let (x, y) = (lowest.x.clone(), starts);
            let _ = tally.placing_in(&sized, &Placing { x, y });
        }
    };
    each_plan(4, &mut compare);
    tally.expect_often(10_000, &[Refusal::RelationBroken]);
    tally.finish(22 * (3 + 2 * 625));
}
