//! The same plan on the smallest grid.

use std::collections::{BTreeMap, BTreeSet};

use crate::Room;

/// The rooms, named as they are, with every coordinate replaced by its rank:
/// the number of smaller ones among the corner coordinates of the same
/// direction.
///
/// This changes nothing that the sheet asks of a room list. Ranks rise
/// exactly where coordinates do, so what is compared compares the same, and
/// corners and edges meet where they met. Between two neighbouring corner
/// coordinates no room begins or ends, so every room holds all the unit
/// squares of the box between two such pairs, or none of them: that box is
/// one unit square of the ranks. Likewise all the unit pieces of a line
/// between two neighbours are pieces of the same edges, and are one unit
/// piece of the ranks. The smallest corner coordinates have rank 0, so the
/// outline starts there.
pub(super) fn ranked(rooms: &[Room]) -> Vec<Room> {
    let across = ranks(rooms.iter().flat_map(|room| [room.left, room.right]));
    let up = ranks(rooms.iter().flat_map(|room| [room.bottom, room.top]));
    rooms
        .iter()
        .map(|room| Room {
            left: across[&room.left],
            bottom: up[&room.bottom],
            right: across[&room.right],
            top: up[&room.top],
            name: room.name,
        })
        .collect()
}

/// Where the right and the top side of the outline are, the smallest box round
/// all rooms. By ranks the left and the bottom side are at 0.
pub(super) fn far_sides(ranked: &[Room]) -> (u16, u16) {
    let right = ranked.iter().map(|room| room.right).max();
    let top = ranked.iter().map(|room| room.top).max();
    (right.unwrap_or(0), top.unwrap_or(0))
}

/// The rank of each coordinate.
fn ranks(coordinates: impl Iterator<Item = u16>) -> BTreeMap<u16, u16> {
    let rising: BTreeSet<u16> = coordinates.collect();
    rising.into_iter().zip(0..).collect()
}

#[cfg(test)]
mod tests {
    use super::ranked;
    use crate::{drawing, Room};

    #[test]
    fn ranks_count_the_smaller_coordinates_of_one_direction() {
        let rooms = [[7, 0, 9, 65_535], [9, 0, 400, 8], [9, 8, 400, 65_535]];
        let expected = [[0, 0, 1, 2], [1, 0, 2, 1], [1, 1, 2, 2]];
        assert_eq!(ranked(&rooms.map(Room::from)), expected.map(Room::from));
        assert!(ranked(&[]).is_empty());
    }

    #[test]
    fn ranks_are_their_own_ranks() {
        let ranks = ranked(&drawing(&[4, 1, 3, 5, 2]));
        let expected = [
            [0, 0, 2, 1],
            [0, 1, 1, 3],
            [1, 1, 2, 2],
            [2, 0, 3, 2],
            [1, 2, 3, 3],
        ];
        assert_eq!(ranks, expected.map(Room::from));
        assert_eq!(ranked(&ranks), ranks);
    }
}
