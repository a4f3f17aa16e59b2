//! "No placing from 0 up that honours all left and below relations puts any
//! corner lower": all placings are tried, by the library alone.

use crate::help::each_plan;
use compare::{repeat, report};
use nenturxo::Refusal;
use reference::cases::sizes::{every_sizes, Placing, SizedRecord};
use reference::cases::walk::list_in_turn;
use reference::cases::Random;

/// The lowest corners, by the library.
fn lowest_corners(sized: &SizedRecord) -> Placing {
    let n = sized.widths.len();
    let (mut x, mut y) = (vec![0; n], vec![0; n]);
    let answer =
        nenturxo::lowest_corners(&sized.record, &sized.widths, &sized.heights, &mut x, &mut y);
    assert_eq!(answer, Ok(n), "{sized:?}");
    Placing { x, y }
}

/// Whether the library accepts corners that suit the record.
fn is_accepted(sized: &SizedRecord, x: &[u32], y: &[u32]) -> bool {
    let answer = nenturxo::placing_in(&sized.record, &sized.widths, &sized.heights, x, y);
    if let Err(refusal) = answer {
        assert_eq!(refusal, Refusal::RELATION_BROKEN, "{sized:?}, {x:?}, {y:?}");
    }
    answer.is_ok()
}

/// Calls `visit` with every list of numbers that are, each at its place, at most
/// the given ones.
fn each_list_up_to(greatest: &[u32], mut visit: impl FnMut(&[u32])) {
    let mut numbers = vec![0; greatest.len()];
    loop {
        visit(&numbers);
        // Counts on: the first number that is not the greatest one yet.
        let place = (0..numbers.len()).find(|&at| numbers[at] < greatest[at]);
        let Some(place) = place else {
            return;
        };
        numbers[place] += 1;
        numbers[..place].fill(0);
    }
}

/// The least number at each place of all lists that are kept.
fn least_of(greatest: &[u32], mut is_kept: impl FnMut(&[u32]) -> bool) -> Vec<u32> {
    let mut least = vec![u32::MAX; greatest.len()];
    each_list_up_to(greatest, |numbers| {
        if is_kept(numbers) {
            for (least, &number) in least.iter_mut().zip(numbers) {
                *least = number.min(*least);
            }
        }
    });
    least
}

/// Holds the lowest corners of a record to the least x and the least y that any
/// accepted placing in a box has: all x are tried with the lowest y, and all y
/// with the lowest x. Gives the number of placings.
fn try_all_in_a_box(sized: &SizedRecord, side: u32) -> usize {
    let lowest = lowest_corners(sized);
    let mut tried = 0;
    let greatest = vec![side; sized.widths.len()];
    let x = least_of(&greatest, |x| {
        tried += 1;
        is_accepted(sized, x, &lowest.y)
    });
    let y = least_of(&greatest, |y| {
        tried += 1;
        is_accepted(sized, &lowest.x, y)
    });
    assert_eq!(lowest, Placing { x, y }, "{sized:?}");
    tried
}

#[test]
fn all_placings_of_up_to_4_rooms_in_a_box() {
    let (mut plans, mut tried) = (0, 0);
    for n in 1..=4 {
        each_plan(n, |plan| {
            for sizes in every_sizes(2, n) {
                let turned: Vec<u16> = sizes.iter().map(|size| 3 - size).collect();
                let sized = SizedRecord::new(plan.record(), sizes, turned);
                // The last of 4 rooms in a row begins at 6, if all are 2.
                tried += try_all_in_a_box(&sized, 7);
                plans += 1;
            }
        });
    }
    report(format_args!(
        "{tried} placings of {plans} plans with sizes tried for a lower corner"
    ));
    assert_eq!(plans, 2 + 2 * 4 + 6 * 8 + 22 * 16);
    assert_eq!(tried, 2 * (2 * 8 + 8 * 64 + 48 * 512 + 352 * 4096));
}

/// The lower ones of the corners of two accepted placings are again an accepted
/// placing, and so are those of any one and the lowest one. So it is enough that
/// of all placings with no corner above the lowest ones only these are accepted.
fn try_all_below(sized: &SizedRecord) -> usize {
    let lowest = lowest_corners(sized);
    let mut tried = 0;
    each_list_up_to(&lowest.x, |x| {
        let accepted = is_accepted(sized, x, &lowest.y);
        assert_eq!(accepted, x == lowest.x, "{sized:?}, x {x:?}");
        tried += 1;
    });
    each_list_up_to(&lowest.y, |y| {
        let accepted = is_accepted(sized, &lowest.x, y);
        assert_eq!(accepted, y == lowest.y, "{sized:?}, y {y:?}");
        tried += 1;
    });
    tried
}

#[test]
fn all_placings_of_5_rooms_below_the_lowest_corners() {
    let (mut plans, mut tried) = (0, 0);
    each_plan(5, |plan| {
        for sizes in every_sizes(2, 5) {
            let turned: Vec<u16> = sizes.iter().map(|size| 3 - size).collect();
            let sized = SizedRecord::new(plan.record(), sizes, turned);
            tried += try_all_below(&sized);
            plans += 1;
        }
    });
    report(format_args!(
        "{tried} placings of {plans} plans of 5 rooms below the lowest one tried"
    ));
    assert_eq!(plans, 92 * 32);
    assert!(tried > 100_000, "{tried}");
}

/// Of 5 rooms in a box, one plan in three and a list of sizes for each.
#[test]
fn all_placings_of_5_rooms_in_a_box() {
    let mut random = Random::from_seed(501);
    let (mut plans, mut tried) = (0, 0);
    each_plan(5, |plan| {
        plans += 1;
        if plans % 3 == 0 {
            let [widths, heights] = [(); 2].map(|()| {
                let sizes = (0..5).map(|_| random.number(1, 2));
                sizes.collect::<Vec<u16>>()
            });
            // The last of 5 rooms in a row begins at 8, if all are 2.
            tried += try_all_in_a_box(&SizedRecord::new(plan.record(), widths, heights), 8);
        }
    });
    report(format_args!("{tried} placings of 5 rooms in a box tried"));
    assert_eq!(tried, 30 * 2 * 9_usize.pow(5));
}

/// Of large plans no room at its lowest corner can be moved 1 lower while the
/// others stand where they are.
#[test]
fn no_room_of_a_large_plan_can_be_1_lower() {
    const PLANS: usize = 60;
    let mut tried = 0;
    repeat(502, 0..PLANS, |random, round| {
        let n = [random.between(6, 254), 255][round % 2];
        let plan = list_in_turn(n, round / 2, random);
        let sized = SizedRecord::some(&plan, random);
        let Placing { mut x, mut y } = lowest_corners(&sized);
        assert!(is_accepted(&sized, &x, &y), "{sized:?}");
        for room in 0..n {
            if x[room] > 0 {
                x[room] -= 1;
                assert!(!is_accepted(&sized, &x, &y), "{sized:?}, x of {room}");
                x[room] += 1;
                tried += 1;
            }
            if y[room] > 0 {
                y[room] -= 1;
                assert!(!is_accepted(&sized, &x, &y), "{sized:?}, y of {room}");
                y[room] += 1;
                tried += 1;
            }
        }
    });
    report(format_args!("{tried} rooms of {PLANS} plans tried 1 lower"));
    assert!(tried > 100 * PLANS, "{tried}");
}
