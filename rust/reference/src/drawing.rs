//! "The grid drawing" of the sheet.

/// A room: four unsigned 16-bit numbers, y grows upward, and by M-106 "a
/// 16-bit name beside its four corners".
#[derive(Clone, Copy, Debug, PartialEq, Eq, Hash)]
pub struct Room {
    /// Where its left edge is.
    pub left: u16,
    /// Where its bottom edge is.
    pub bottom: u16,
    /// Where its right edge is.
    pub right: u16,
    /// Where its top edge is.
    pub top: u16,
    /// Its name: "Name 0 means unnamed and may occur often."
    pub name: u16,
}

/// The unnamed room with these corners: left, bottom, right, top.
impl From<[u16; 4]> for Room {
    fn from([left, bottom, right, top]: [u16; 4]) -> Self {
        Self {
            left,
            bottom,
            right,
            top,
            name: 0,
        }
    }
}

/// The rooms by position in the grid drawing of a list of at most 255 labels.
/// The outline is 0 to n both ways.
#[must_use]
pub fn drawing(labels: &[u8]) -> Vec<Room> {
    (1..=last_position(labels))
        .map(|i| room(labels, i))
        .collect()
}

/// The room at position `i`.
fn room(labels: &[u8], i: u16) -> Room {
    let n = last_position(labels);
    let label = |position: u16| labels[usize::from(position) - 1];
    let last_before = |fits: &dyn Fn(u16) -> bool| (1..i).rev().find(|&j| fits(j));
    let first_later = |fits: &dyn Fn(u16) -> bool| (i + 1..=n).find(|&j| fits(j));
    let smaller = |j| label(j) < label(i);
    let larger = |j| label(j) > label(i);
    Room {
        // the last position before i with a smaller label, 0 if none
        left: last_before(&smaller).unwrap_or(0),
        // the last position before i with a larger label, 0 if none
        bottom: last_before(&larger).unwrap_or(0),
        // the first later position with a larger label, less 1; n if none
        right: first_later(&larger).map_or(n, |j| j - 1),
        // the first later position with a smaller label, less 1; n if none
        top: first_later(&smaller).map_or(n, |j| j - 1),
        // "a drawing made from a record has name 0 in all rooms" (M-106)
        name: 0,
    }
}

/// The last position of a list: n.
fn last_position(labels: &[u8]) -> u16 {
    u16::try_from(labels.len()).expect("at most 255 labels")
}

#[cfg(test)]
mod tests {
    use super::{drawing, Room};
    use crate::cases::{each_permutation, rooms, worked};

    /// Algorithm BP2FP as 001 prints it, by positions. A slice at the i-th
    /// level of the grid is one at i − 1, counted from 0. To extend over the
    /// block beside it, the new block takes all of that block's right part
    /// (or upper part) from its own slice on.
    fn bp2fp(labels: &[u8]) -> Vec<Room> {
        let n = u16::try_from(labels.len()).unwrap();
        let mut rooms = rooms(&[[0, 0, n, n]]);
        for i in 1..labels.len() {
            let level = u16::try_from(i).unwrap();
            let mut new = rooms[i - 1];
            if labels[i] < labels[i - 1] {
                rooms[i - 1].top = level;
                new.bottom = level;
                // the block to the left of the new one, at its height
                while let Some(b) = rooms
                    .iter()
                    .position(|b| b.right == new.left && b.top == n)
                    .filter(|&b| labels[b] > labels[i])
                {
                    rooms[b].top = level;
                    new.left = rooms[b].left;
                }
            } else {
                rooms[i - 1].right = level;
                new.left = level;
                // the block below the new one, at the right side
                while let Some(b) = rooms
                    .iter()
                    .position(|b| b.top == new.bottom && b.right == n)
                    .filter(|&b| labels[b] < labels[i])
                {
                    rooms[b].right = level;
                    new.bottom = rooms[b].bottom;
                }
            }
            rooms.push(new);
        }
        rooms
    }

    #[test]
    fn the_worked_drawing_of_the_sheet() {
        assert_eq!(drawing(&[4, 1, 3, 5, 2]), rooms(&worked::DRAWING));
    }

    #[test]
    fn every_drawing_of_up_to_7_labels_is_that_of_the_algorithm_in_001() {
        for n in 1..=7 {
            each_permutation(n, |labels| {
                assert_eq!(drawing(labels), bp2fp(labels), "{labels:?}");
            });
        }
    }

    /// Holds a drawing to its outline: no room is empty, and each unit square
    /// is in one.
    fn fills_the_outline_once(labels: &[u8]) {
        let n = labels.len();
        let mut owners = vec![0; n * n];
        for room in drawing(labels) {
            assert!(room.left < room.right && room.bottom < room.top);
            for x in room.left..room.right {
                for y in room.bottom..room.top {
                    owners[usize::from(x) * n + usize::from(y)] += 1;
                }
            }
        }
        assert!(owners.iter().all(|&count| count == 1), "{labels:?}");
    }

    #[test]
    fn every_drawing_of_up_to_7_labels_fills_the_outline_once() {
        for n in 1..=7 {
            each_permutation(n, fills_the_outline_once);
        }
    }

    #[test]
    fn the_trap_of_two_lists_with_one_drawing() {
        assert_eq!(drawing(&[2, 4, 1, 3]), drawing(&[3, 4, 1, 2]));
    }
}
