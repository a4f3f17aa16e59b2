//! What the tests of this folder share.

use compare::grouped;
use reference::{Relation, Room};

/// Whether the two rooms have a piece of edge in common. Rooms that have none
/// may be in a direct relation and touch all the same: the segments slide.
pub fn share_an_edge(a: Room, b: Room) -> bool {
    let upright = a.bottom.max(b.bottom) < a.top.min(b.top);
    let level = a.left.max(b.left) < a.right.min(b.right);
    upright && (a.right == b.left || b.right == a.left)
        || level && (a.top == b.bottom || b.top == a.bottom)
}

/// The kinds of pairs of rooms.
#[derive(Clone, Copy, Debug, PartialEq, Eq)]
pub enum Kind {
    /// In a direct relation, with a piece of edge in common.
    Adjoining,
    /// In a direct relation, with no piece of edge in common.
    Facing,
    /// In no direct relation, and yet they touch.
    SameSide,
    /// In no direct relation, and they do not touch.
    Apart,
}

impl Kind {
    /// All four.
    pub const ALL: [Self; 4] = [Self::Adjoining, Self::Facing, Self::SameSide, Self::Apart];

    /// The kind of two rooms with this answer.
    ///
    /// # Panics
    ///
    /// If a direct relation is missed, or one would be where the two do not
    /// touch.
    pub fn of([a, b]: [Room; 2], (relation, touch): (Relation, bool)) -> Self {
        match (relation.direct, touch) {
            (true, true) if share_an_edge(a, b) => Self::Adjoining,
            (true, true) => Self::Facing,
            (true, false) => panic!("{a:?} and {b:?} are in a direct relation and do not touch"),
            // The segment along a shared piece of edge holds the facing edges.
            (false, _) if share_an_edge(a, b) => panic!("{a:?} and {b:?} share a piece of edge"),
            (false, true) => Self::SameSide,
            (false, false) => Self::Apart,
        }
    }
}

/// The numbers of pairs of each kind, as they are printed.
pub fn shown(of_kind: [usize; Kind::ALL.len()]) -> String {
    let [adjoining, facing, same_side, apart] = of_kind.map(grouped);
    format!(
        "of the pairs {adjoining} are direct with a shared edge, {facing} direct without one, \
         {same_side} only touch and {apart} do neither"
    )
}
