//! The cutting tree of M-103, the v-h tree of 003, found by cutting the
//! drawing of a plan.

use crate::Room;

/// A cutting tree (003, Definition 2.2.1).
#[derive(Clone, Debug, PartialEq, Eq)]
pub enum CuttingTree {
    /// A leaf: a room, which is not divided further.
    Leaf,
    /// A rectangle that is cut, and the rectangles that come of it, left to
    /// right or bottom to top. These are cut the other way, if at all, so
    /// levels alternate.
    Node(Cut, Vec<CuttingTree>),
}

/// The lines by which a rectangle is cut.
#[derive(Clone, Copy, Debug, PartialEq, Eq, Hash)]
pub enum Cut {
    /// Lines from its bottom to its top.
    Vertical,
    /// Lines from its left to its right.
    Horizontal,
}

impl CuttingTree {
    /// The tree as M-103 writes it, from the root down: a leaf is kind 1 with
    /// no body, a node has its kind and the number of its children, which
    /// follow it.
    ///
    /// # Panics
    ///
    /// If a node has over 255 children.
    #[must_use]
    pub fn bytes(&self) -> Vec<u8> {
        match self {
            Self::Leaf => vec![1],
            Self::Node(cut, children) => {
                let count = u8::try_from(children.len()).expect("at most 255 rooms");
                let below = children.iter().flat_map(Self::bytes);
                [cut.kind(), count].into_iter().chain(below).collect()
            }
        }
    }
}

impl Cut {
    /// A node cut by vertical lines is kind 2, by horizontal lines kind 3.
    #[must_use]
    pub const fn kind(self) -> u8 {
        match self {
            Self::Vertical => 2,
            Self::Horizontal => 3,
        }
    }

    /// Where a room starts and where it ends, in the direction in which the
    /// lines follow each other.
    fn extent(self, room: Room) -> (u16, u16) {
        match self {
            Self::Vertical => (room.left, room.right),
            Self::Horizontal => (room.bottom, room.top),
        }
    }

    /// Whether the line at `at` runs through a room.
    fn divides(self, at: u16, room: Room) -> bool {
        let (start, end) = self.extent(room);
        start < at && at < end
    }
}

/// The cutting tree of the rectangle that these rooms fill, at least one, if
/// lines from side to side cut it, and again each of its parts, down to the
/// rooms.
///
/// A vertical and a horizontal line of that kind would cross where four rooms
/// meet, so there is no choice between the two.
#[must_use]
pub fn cutting_tree(rooms: &[Room]) -> Option<CuttingTree> {
    if let [_] = rooms {
        return Some(CuttingTree::Leaf);
    }
    let cuts = [Cut::Vertical, Cut::Horizontal].into_iter();
    let mut cuts = cuts.map(|cut| (cut, parts(rooms, cut)));
    let (cut, parts) = cuts.find(|(_, parts)| parts.len() > 1)?;
    let children: Option<Vec<_>> = parts.iter().map(|part| cutting_tree(part)).collect();
    Some(CuttingTree::Node(cut, children?))
}

/// The parts into which all lines of a direction that run from side to side
/// cut a rectangle, in order; it stays in one part if there is no such line.
fn parts(rooms: &[Room], cut: Cut) -> Vec<Vec<Room>> {
    let mut lines: Vec<u16> = rooms.iter().map(|&room| cut.extent(room).1).collect();
    lines.sort_unstable();
    lines.dedup();
    // The last one is the side of the rectangle, which divides no room either.
    lines.retain(|&line| !rooms.iter().any(|&room| cut.divides(line, room)));

    let mut parts = Vec::new();
    let mut rest = rooms.to_vec();
    for line in lines {
        let is_before = |room: &Room| cut.extent(*room).1 <= line;
        let (part, beyond) = rest.into_iter().partition(is_before);
        parts.push(part);
        rest = beyond;
    }
    parts
}

#[cfg(test)]
mod tests {
    use super::{cutting_tree, Cut, CuttingTree};
    use crate::cases::rooms;

    /// A node of rooms.
    fn row(cut: Cut, count: usize) -> CuttingTree {
        CuttingTree::Node(cut, vec![CuttingTree::Leaf; count])
    }

    #[test]
    fn the_strips_of_figure_13_of_003() {
        // Three strips: A alone; B, C and D; E, F and G. The rooms of a strip
        // are not in line with those of the next.
        let strips = rooms(&[
            [0, 0, 2, 9],
            [2, 0, 5, 2],
            [2, 2, 5, 5],
            [2, 5, 5, 9],
            [5, 0, 9, 3],
            [5, 3, 9, 7],
            [5, 7, 9, 9],
        ]);
        let three = row(Cut::Horizontal, 3);
        let tree = CuttingTree::Node(Cut::Vertical, vec![CuttingTree::Leaf, three.clone(), three]);
        assert_eq!(cutting_tree(&strips), Some(tree.clone()));
        let bytes = [2, 3, 1, 3, 3, 1, 1, 1, 3, 3, 1, 1, 1];
        assert_eq!(tree.bytes(), bytes);
    }

    #[test]
    fn children_stand_bottom_to_top_and_left_to_right() {
        // A room below, and above it two beside each other of which the left
        // one is cut again.
        let plan = rooms(&[[0, 2, 3, 3], [3, 2, 5, 6], [0, 0, 5, 2], [0, 3, 3, 6]]);
        let bytes = cutting_tree(&plan).map(|tree| tree.bytes());
        assert_eq!(bytes, Some(vec![3, 2, 1, 2, 2, 3, 2, 1, 1, 1]));
    }

    #[test]
    fn a_pinwheel_has_no_line_from_side_to_side() {
        let pinwheel = [
            [0, 0, 3, 1],
            [0, 1, 2, 5],
            [2, 1, 3, 4],
            [3, 0, 5, 4],
            [2, 4, 5, 5],
        ];
        assert_eq!(cutting_tree(&rooms(&pinwheel)), None);
        // Nor has a plan that it is a part of, be it the last one to be cut.
        let beside = [&pinwheel[..], &[[5, 0, 7, 5]]].concat();
        assert_eq!(cutting_tree(&rooms(&beside)), None);
        let above = [&[[0, 5, 1, 6], [1, 5, 5, 6]], &pinwheel[..]].concat();
        assert_eq!(cutting_tree(&rooms(&above)), None);
    }
}
