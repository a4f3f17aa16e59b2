//! When two floorplans are equivalent, in "Rooms, segments and the two
//! orders" of the sheet.

use std::collections::{BTreeMap, BTreeSet};

use super::causes::floorplan_of;
use super::segments::supports_of;
use crate::Room;

/// The sides of a room.
#[derive(Clone, Copy, PartialEq, Eq, PartialOrd, Ord)]
enum Side {
    Left,
    Right,
    Bottom,
    Top,
}

/// What one segment holds: edges, each by its room's place in the list and
/// its side.
type Holding = BTreeSet<(usize, Side)>;

/// Whether two room lists are equivalent floorplans: whether their rooms pair
/// off one to one, and their segments too, so that a segment holds the left
/// edge of a room exactly when its partner holds the left edge of that room's
/// partner, and likewise for right, bottom and top edges.
///
/// All n! ways to pair the rooms off are tried, so the lists should be small.
/// A list with one of the causes 1 to 5 is no floorplan and equivalent to none.
/// By M-106 "equivalence ignores" names.
#[must_use]
pub fn equivalent(a: &[Room], b: &[Room]) -> bool {
    let (Ok(a), Ok(b)) = (floorplan_of(a), floorplan_of(b)) else {
        return false;
    };
    if a.n != b.n {
        return false;
    }
    let (of_a, of_b) = (holdings(&a.rooms), holdings(&b.rooms));
    let mut partners: Vec<usize> = (0..b.rooms.len()).collect();
    some_order(&mut partners, 0, &|partners| {
        pair_off(&of_a, &of_b, partners)
    })
}

/// What each segment of a floorplan holds.
///
/// Every segment holds an edge and no edge is held twice, so a segment is
/// known by what it holds.
fn holdings(rooms: &[Room]) -> BTreeSet<Holding> {
    let mut by_segment: BTreeMap<_, Holding> = BTreeMap::new();
    for (room, supports) in supports_of(rooms).into_iter().enumerate() {
        for (segment, side) in [
            (supports.left, Side::Left),
            (supports.right, Side::Right),
            (supports.bottom, Side::Bottom),
            (supports.top, Side::Top),
        ] {
            by_segment.entry(segment).or_default().insert((room, side));
        }
    }
    by_segment.into_values().collect()
}

/// Whether the segments pair off once the rooms have: whether there are as
/// many on both sides, and each has a partner that holds the same edges of
/// the partners of its rooms.
fn pair_off(of_a: &BTreeSet<Holding>, of_b: &BTreeSet<Holding>, partners: &[usize]) -> bool {
    let of_partners = |held: &Holding| -> Holding {
        held.iter()
            .map(|&(room, side)| (partners[room], side))
            .collect()
    };
    of_a.len() == of_b.len() && of_a.iter().all(|held| of_b.contains(&of_partners(held)))
}

/// Whether some order of the entries from `fixed` on fits.
fn some_order(entries: &mut [usize], fixed: usize, fits: &impl Fn(&[usize]) -> bool) -> bool {
    if fixed == entries.len() {
        return fits(entries);
    }
    for other in fixed..entries.len() {
        entries.swap(fixed, other);
        let found = some_order(entries, fixed + 1, fits);
        entries.swap(fixed, other);
        if found {
            return true;
        }
    }
    false
}
