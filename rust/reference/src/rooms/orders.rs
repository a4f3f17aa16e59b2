//! The two orders in "Rooms, segments and the two orders" of the sheet.

use super::chains::Chains;
use super::segments::Supports;
use crate::Side::{Above, Below, Left};

/// The label and the position of a room.
#[derive(Clone, Copy, Debug, PartialEq, Eq)]
pub(super) struct Order {
    pub(super) label: u8,
    pub(super) position: u8,
}

/// The label and the position of each room of a floorplan of at most 255
/// rooms, in list order, from the segments that support the rooms:
///
/// - the label is 1 plus the number of rooms left of it or above it;
/// - the position is 1 plus the number of rooms left of it or below it.
pub(super) fn orders_of(rooms: &[Supports]) -> Vec<Order> {
    let chains = Chains::of(rooms);
    let is = |other, side, room| chains.steps(side, other, room).is_some();
    let one_plus = |counts: &dyn Fn(usize) -> bool| {
        let number = (0..rooms.len()).filter(|&other| counts(other)).count();
        u8::try_from(1 + number).expect("no room is left of itself, above or below")
    };
    (0..rooms.len())
        .map(|room| Order {
            label: one_plus(&|other| is(other, Left, room) || is(other, Above, room)),
            position: one_plus(&|other| is(other, Left, room) || is(other, Below, room)),
        })
        .collect()
}

/// What each room has, from list order into the order of the positions.
pub(super) fn by_position<T: Copy>(orders: &[Order], of_rooms: &[T]) -> Vec<T> {
    let mut places: Vec<usize> = (0..orders.len()).collect();
    places.sort_by_key(|&place| orders[place].position);
    places.iter().map(|&place| of_rooms[place]).collect()
}
