//! Two plans get the same record exactly where they are equivalent, which is
//! decided by trying all ways to pair their rooms off.

use compare::rooms_in::library_numbering;
use compare::{of_library, repeat, report, Floorplan};
use reference::cases::walk::random_list;
use reference::cases::{baxter_lists, rooms, worked, Random};
use reference::{equivalent, Room};

/// The rooms of a drawing, moved, with other names and in another order.
fn moved(labels: &[u8], random: &mut Random) -> Vec<Room> {
    let mut plan = Floorplan::drawn(labels);
    plan.move_about(5, random);
    plan.rooms()
}

/// Compares two plans, and says whether they are equivalent.
fn compare(a: &[Room], b: &[Room]) -> bool {
    let numbering = |rooms| library_numbering(&of_library::rooms(rooms));
    let [of_a, of_b] = [a, b].map(|rooms| numbering(rooms).map(|answer| answer.record));
    assert!(of_a.is_ok() && of_b.is_ok(), "{a:?} and {b:?}");
    let same = of_a == of_b;
    assert_eq!(same, equivalent(a, b), "{a:?} and {b:?}");
    same
}

#[test]
fn all_pairs_of_plans_of_up_to_4_rooms() {
    const ROUNDS: usize = 4;
    let mut random = Random::from_seed(141);
    let lists: Vec<Vec<u8>> = (1..=4).flat_map(baxter_lists).collect();
    let (mut pairs, mut same) = (0, 0);
    for a in &lists {
        for b in &lists {
            for _ in 0..ROUNDS {
                let (a, b) = (moved(a, &mut random), moved(b, &mut random));
                same += usize::from(compare(&a, &b));
                pairs += 1;
            }
        }
    }
    report(format_args!("{pairs} pairs of up to 4 rooms, {same} same"));
    assert_eq!(pairs, ROUNDS * 31 * 31);
    assert_eq!(same, ROUNDS * 31);
}

#[test]
fn pairs_of_plans_of_5_to_7_rooms() {
    const PAIRS: usize = 500;
    let mut same = 0;
    repeat(142, 0..PAIRS, |random, round| {
        let n = [5, 5, 5, 6, 6, 7][round % 6];
        let labels = random_list(n, random).labels;
        let other = random_list(n, random).labels;
        let plan = moved(&labels, random);
        assert!(compare(&plan, &moved(&labels, random)), "{labels:?}");
        same += usize::from(compare(&plan, &moved(&other, random)));
    });
    report(format_args!(
        "{} pairs of 5 to 7 rooms, {} same",
        2 * PAIRS,
        PAIRS + same
    ));
    assert!(same < PAIRS / 10, "most pairs of random plans differ");
}

/// Plans that differ only in what shares a piece of edge across a segment, and
/// plans that look alike and are not equivalent.
#[test]
fn pairs_that_look_alike() {
    // The upper cut left of the lower one, and right of it.
    let left = rooms(&[[0, 0, 2, 1], [2, 0, 4, 1], [0, 1, 1, 2], [1, 1, 4, 2]]);
    let right = rooms(&[[0, 0, 2, 1], [2, 0, 4, 1], [0, 1, 3, 2], [3, 1, 4, 2]]);
    assert!(compare(&left, &right));
    // The same, turned: the two are equivalent, but not to the others.
    let low = rooms(&[[0, 0, 1, 2], [0, 2, 1, 4], [1, 0, 2, 1], [1, 1, 2, 4]]);
    let high = rooms(&[[0, 0, 1, 2], [0, 2, 1, 4], [1, 0, 2, 3], [1, 3, 2, 4]]);
    assert!(compare(&low, &high));
    assert!(!compare(&left, &low));
    // The two pinwheels: the one that the sheet draws, and the same in a mirror.
    let one = rooms(&worked::DRAWING);
    let mirrored = |[left, bottom, right, top]: [u16; 4]| [5 - right, bottom, 5 - left, top];
    let other = rooms(&worked::DRAWING.map(mirrored));
    assert!(!compare(&one, &other));
    assert!(compare(&one, &one));
}
