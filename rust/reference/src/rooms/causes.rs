//! The causes 1 to 5 in the sheet's table of refusals, and the cause 20 that
//! M-106 adds.

use std::collections::BTreeMap;

use super::ranks::{far_sides, ranked};
use crate::labels::room_count;
use crate::{Refusal, Room};

/// A floorplan: what a room list is that has none of the causes 1 to 5.
pub(super) struct Floorplan {
    /// The number of rooms.
    pub(super) n: u8,
    /// The rooms in list order, by ranks.
    pub(super) rooms: Vec<Room>,
}

/// The floorplan that a room list is.
///
/// # Errors
///
/// The first cause found in the order 1, 2, 3, 4, 5.
pub(super) fn floorplan_of(rooms: &[Room]) -> Result<Floorplan, Refusal> {
    let n = room_count(rooms).ok_or(Refusal::ListLength)?;
    let is_empty = |room: &Room| room.right <= room.left || room.top <= room.bottom;
    if rooms.iter().any(is_empty) {
        return Err(Refusal::EmptyRoom);
    }
    let rooms = ranked(rooms);
    let squares = rooms_on_squares(&rooms);
    if squares.iter().any(|&count| count >= 2) {
        return Err(Refusal::SharedSquare);
    }
    if squares.contains(&0) {
        return Err(Refusal::OpenSquare);
    }
    // Rooms that share no square are at most four at a point.
    if rooms_at_corners(&rooms).values().any(|&count| count >= 4) {
        return Err(Refusal::FourRoomsMeet);
    }
    Ok(Floorplan { n, rooms })
}

/// The number of rooms on each unit square of the outline, which by ranks is
/// the box from 0 to its far sides.
fn rooms_on_squares(rooms: &[Room]) -> Vec<usize> {
    let (width, height) = far_sides(rooms);
    let square = |x: u16, y: u16| usize::from(x) * usize::from(height) + usize::from(y);

    let mut counts = vec![0; square(width, 0)];
    for room in rooms {
        for x in room.left..room.right {
            for y in room.bottom..room.top {
                counts[square(x, y)] += 1;
            }
        }
    }
    counts
}

/// The number of rooms that have a corner at each point where a corner is.
fn rooms_at_corners(rooms: &[Room]) -> BTreeMap<(u16, u16), usize> {
    let mut counts = BTreeMap::new();
    for room in rooms {
        for x in [room.left, room.right] {
            for y in [room.bottom, room.top] {
                *counts.entry((x, y)).or_insert(0) += 1;
            }
        }
    }
    counts
}

/// Whether one nonzero name is on two rooms: on two different ones, that is.
pub(super) fn share_a_name(rooms: &[Room]) -> bool {
    let places = || 0..rooms.len();
    let mut pairs = places().flat_map(|i| places().map(move |j| (i, j)));
    pairs.any(|(i, j)| i != j && rooms[i].name == rooms[j].name && rooms[i].name != 0)
}
