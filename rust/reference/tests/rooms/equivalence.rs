//! Records are equal exactly where floorplans are equivalent, and equivalent
//! floorplans have the same rooms touching and in the same relations, direct or
//! not.

use crate::help::{ask, standings};
use reference::cases::names::{named, some_names};
use reference::cases::{baxter_lists, rooms, Random};
use reference::{drawing, equivalent, plan_of, Room};
use std::collections::BTreeMap;

#[test]
fn all_pairs_of_drawings_of_up_to_4_labels() {
    let mut random = Random::from_seed(3);
    let lists: Vec<Vec<u8>> = (1..=4).flat_map(baxter_lists).collect();
    assert_eq!(lists.len(), 1 + 2 + 6 + 22);
    let mut pairs = 0;
    for a in lists.iter().map(|labels| drawing(labels)) {
        for b in lists.iter().map(|labels| drawing(labels)) {
            let (mut a, mut b) = (a.clone(), b);
            random.shuffle(&mut a);
            random.shuffle(&mut b);
            let same = ask(&a).unwrap().record == ask(&b).unwrap().record;
            assert_eq!(same, equivalent(&a, &b), "{a:?} and {b:?}");
            pairs += usize::from(same);
        }
    }
    assert_eq!(pairs, lists.len());
}

#[test]
fn names_do_not_count() {
    let mut random = Random::from_seed(4);
    let lists: Vec<Vec<u8>> = (1..=4).flat_map(baxter_lists).collect();
    let mut differ = 0;
    for rooms in lists.iter().map(|labels| drawing(labels)) {
        let [one, other] = [(); 2].map(|()| named(&rooms, &some_names(rooms.len(), &mut random)));
        assert!(equivalent(&one, &other), "{one:?} and {other:?}");
        assert_eq!(ask(&one).unwrap().record, ask(&other).unwrap().record);
        differ += usize::from(one != other);

        // One name on two rooms is refused, and changes nothing of the plan.
        let alike = named(&rooms, &vec![7; rooms.len()]);
        assert!(equivalent(&one, &alike), "{one:?} and {alike:?}");
    }
    assert!(differ > lists.len() / 2, "{differ}");
}

/// Calls `visit` with every way to fill what is left of a box of `width` by
/// `height` with rooms: the first open square is the lower left one of the
/// next room.
fn each_filling(
    width: u16,
    height: u16,
    corners: &mut Vec<[u16; 4]>,
    visit: &mut impl FnMut(&[Room]),
) {
    let is_open = |corners: &[[u16; 4]], x, y| {
        !corners
            .iter()
            .any(|c| (c[0]..c[2]).contains(&x) && (c[1]..c[3]).contains(&y))
    };
    let mut squares = (0..height).flat_map(|y| (0..width).map(move |x| (x, y)));
    let Some((x, y)) = squares.find(|&(x, y)| is_open(corners, x, y)) else {
        visit(&rooms(corners));
        return;
    };
    // What is open at this height is open further up: all rooms so far begin
    // at this height or below.
    let end = (x..width).find(|&x| !is_open(corners, x, y));
    for right in x + 1..=end.unwrap_or(width) {
        for top in y + 1..=height {
            corners.push([x, y, right, top]);
            each_filling(width, height, corners, visit);
            corners.pop();
        }
    }
}

/// One floorplan of each kind met, by its record, and how many were met.
#[derive(Default)]
struct Kinds {
    first: BTreeMap<Vec<u8>, Vec<Room>>,
    met: usize,
}

impl Kinds {
    /// A floorplan with a known record is equivalent to the first with it, and
    /// its rooms stand to each other and touch as in the drawing.
    fn meet(&mut self, rooms: &[Room]) {
        if rooms.len() > 6 {
            return;
        }
        if let Ok(answer) = ask(rooms) {
            let drawn = plan_of(&answer.record).unwrap().rooms;
            let in_drawing = standings(&drawn, &[1, 2, 3, 4, 5, 6]);
            assert_eq!(standings(rooms, &answer.positions), in_drawing, "{rooms:?}");

            let first = self.first.entry(answer.record);
            let first = first.or_insert_with(|| rooms.to_vec());
            assert!(equivalent(first, rooms), "{first:?} and {rooms:?}");
            self.met += 1;
        }
    }

    /// Floorplans with different records are not equivalent.
    fn tell_apart(&self, most: usize) {
        for (a, of_a) in self.first.iter().filter(|(_, rooms)| rooms.len() <= most) {
            for (b, of_b) in self.first.iter().filter(|(_, rooms)| rooms.len() <= most) {
                assert_eq!(a == b, equivalent(of_a, of_b), "{of_a:?} and {of_b:?}");
            }
        }
    }

    /// How many kinds with `n` rooms were met.
    fn count(&self, n: u8) -> usize {
        self.first.keys().filter(|record| record[0] == n).count()
    }
}

#[test]
fn every_floorplan_of_up_to_6_rooms_in_a_box_of_up_to_4_by_4() {
    let mut kinds = Kinds::default();
    let mut fillings = 0;
    for (width, height) in [(1, 1), (2, 2), (4, 1), (1, 4), (3, 3), (4, 4)] {
        let mut visit = |rooms: &[Room]| {
            fillings += 1;
            kinds.meet(rooms);
        };
        each_filling(width, height, &mut Vec::new(), &mut visit);
    }
    // 8 are the fillings of 2 by 2 and of 4 by 1, 322 of 3 by 3
    assert_eq!(fillings, 1 + 8 + 8 + 8 + 322 + 70_878);
    // All kinds fit in there that need at most 3 cuts each way: all of up to
    // 4 rooms, all of 5 but the row and the pile, and of the 422 of 6 those
    // with 2 rises and 3 falls in their lists, or 3 and 2.
    let counts = [1, 2, 3, 4, 5, 6].map(|n| kinds.count(n));
    assert_eq!(counts, [1, 2, 6, 22, 90, 350]);
    assert!(kinds.met > 1000, "{}", kinds.met);
    kinds.tell_apart(5);
}

#[test]
fn refused_lists_are_equivalent_to_none() {
    let gap = rooms(&[[0, 0, 1, 1], [2, 0, 3, 1]]);
    let row = rooms(&[[0, 0, 1, 1], [1, 0, 3, 1]]);
    assert!(!equivalent(&gap, &gap));
    assert!(!equivalent(&gap, &row));
    assert!(!equivalent(&row, &gap));
    assert!(!equivalent(&[], &[]));
    assert!(equivalent(&row, &row));
}
