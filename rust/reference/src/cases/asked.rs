//! Plans with every pair of their positions, worked by hand.

use super::worked::{CONVERTED, LISTED};
use crate::Relation;
use crate::Side::{self, Below, Left};

/// How a room stands to another one, worked by hand.
#[derive(Clone, Copy, Debug)]
pub struct Standing {
    /// The side of the other one on which it is.
    pub side: Side,
    /// The least number of direct steps from one to the other.
    pub steps: u8,
    /// Whether the two touch.
    pub touch: bool,
}

impl Standing {
    /// What the question is answered with.
    #[must_use]
    pub const fn answer(self) -> (Relation, bool) {
        let direct = self.steps == 1;
        let side = self.side;
        (Relation { side, direct }, self.touch)
    }
}

/// One segment holds the facing edges.
const fn direct(side: Side) -> Standing {
    Standing {
        side,
        steps: 1,
        touch: true,
    }
}

/// So many steps lead from one to the other, and a segment supports both from
/// the same side.
const fn same_side(side: Side, steps: u8) -> Standing {
    Standing {
        side,
        steps,
        touch: true,
    }
}

/// So many steps lead from one to the other, and no segment but outline sides
/// supports both.
const fn apart(side: Side, steps: u8) -> Standing {
    Standing {
        side,
        steps,
        touch: false,
    }
}

/// A plan with every pair of its positions.
#[derive(Clone, Copy, Debug)]
pub struct Asked {
    /// The labels by position.
    pub labels: &'static [u8],
    /// The record.
    pub record: &'static [u8],
    /// The pairs of positions in which the first one is the smaller one, and
    /// how the first room stands to the second.
    pub pairs: &'static [([u8; 2], Standing)],
}

/// The plans: two of 3 rooms, five of 4, six of 5, two of 6 and one of 7.
pub const PLANS: [Asked; 16] = [
    // The pinwheel that the sheet draws: the room at position 3 has the others
    // round it. Only the first and the last one, and the second and the fourth,
    // have no segment in common.
    Asked {
        labels: &[4, 1, 3, 5, 2],
        record: &LISTED,
        pairs: &[
            ([1, 2], direct(Below)),
            ([1, 3], direct(Below)),
            ([1, 4], direct(Left)),
            ([1, 5], apart(Below, 2)),
            ([2, 3], direct(Left)),
            ([2, 4], apart(Left, 2)),
            ([2, 5], direct(Left)),
            ([3, 4], direct(Left)),
            ([3, 5], direct(Below)),
            ([4, 5], direct(Below)),
        ],
    },
    // The other pinwheel, what 000 converts 2413 to.
    Asked {
        labels: &[2, 5, 3, 1, 4],
        record: CONVERTED.1,
        pairs: &[
            ([1, 2], direct(Left)),
            ([1, 3], direct(Left)),
            ([1, 4], direct(Below)),
            ([1, 5], apart(Left, 2)),
            ([2, 3], direct(Below)),
            ([2, 4], apart(Below, 2)),
            ([2, 5], direct(Below)),
            ([3, 4], direct(Below)),
            ([3, 5], direct(Left)),
            ([4, 5], direct(Left)),
        ],
    },
    // Two rows of two rooms: the segment between the rows holds the top edges
    // of the lower two and the bottom edges of the upper two. So 1 is directly
    // below 4 too, though the two share no piece of edge in the drawing.
    Asked {
        labels: &[3, 4, 1, 2],
        record: &[0x04, 0x47, 0x00],
        pairs: &[
            ([1, 2], direct(Left)),
            ([1, 3], direct(Below)),
            ([1, 4], direct(Below)),
            ([2, 3], direct(Below)),
            ([2, 4], direct(Below)),
            ([3, 4], direct(Left)),
        ],
    },
    // Three rooms side by side: 1 and 3 hang on outline sides alone.
    Asked {
        labels: &[1, 2, 3],
        record: &[0x03, 0x48],
        pairs: &[
            ([1, 2], direct(Left)),
            ([1, 3], apart(Left, 2)),
            ([2, 3], direct(Left)),
        ],
    },
    // And one on another.
    Asked {
        labels: &[3, 2, 1],
        record: &[0x03, 0xb4],
        pairs: &[
            ([1, 2], direct(Below)),
            ([1, 3], apart(Below, 2)),
            ([2, 3], direct(Below)),
        ],
    },
    // Five side by side: as many steps as one is further on than the other.
    Asked {
        labels: &[1, 2, 3, 4, 5],
        record: &[0x05, 0x49, 0x20],
        pairs: &[
            ([1, 2], direct(Left)),
            ([1, 3], apart(Left, 2)),
            ([1, 4], apart(Left, 3)),
            ([1, 5], apart(Left, 4)),
            ([2, 3], direct(Left)),
            ([2, 4], apart(Left, 2)),
            ([2, 5], apart(Left, 3)),
            ([3, 4], direct(Left)),
            ([3, 5], apart(Left, 2)),
            ([4, 5], direct(Left)),
        ],
    },
    // And one on another.
    Asked {
        labels: &[5, 4, 3, 2, 1],
        record: &[0x05, 0xb6, 0xd0],
        pairs: &[
            ([1, 2], direct(Below)),
            ([1, 3], apart(Below, 2)),
            ([1, 4], apart(Below, 3)),
            ([1, 5], apart(Below, 4)),
            ([2, 3], direct(Below)),
            ([2, 4], apart(Below, 2)),
            ([2, 5], apart(Below, 3)),
            ([3, 4], direct(Below)),
            ([3, 5], apart(Below, 2)),
            ([4, 5], direct(Below)),
        ],
    },
    // Three rooms under a bar: the segment between supports 1 and 3 from the
    // same side, so they touch, and yet 2 is between them.
    Asked {
        labels: &[2, 3, 4, 1],
        record: &[0x04, 0x4a, 0x80],
        pairs: &[
            ([1, 2], direct(Left)),
            ([1, 3], same_side(Left, 2)),
            ([1, 4], direct(Below)),
            ([2, 3], direct(Left)),
            ([2, 4], direct(Below)),
            ([3, 4], direct(Below)),
        ],
    },
    // Four under a bar: so 1 and 4 through three steps.
    Asked {
        labels: &[2, 3, 4, 5, 1],
        record: &[0x05, 0x49, 0x50],
        pairs: &[
            ([1, 2], direct(Left)),
            ([1, 3], same_side(Left, 2)),
            ([1, 4], same_side(Left, 3)),
            ([1, 5], direct(Below)),
            ([2, 3], direct(Left)),
            ([2, 4], same_side(Left, 2)),
            ([2, 5], direct(Below)),
            ([3, 4], direct(Left)),
            ([3, 5], direct(Below)),
            ([4, 5], direct(Below)),
        ],
    },
    // Three on a bar: so 2 and 4.
    Asked {
        labels: &[4, 1, 2, 3],
        record: &[0x04, 0x2b, 0x00],
        pairs: &[
            ([1, 2], direct(Below)),
            ([1, 3], direct(Below)),
            ([1, 4], direct(Below)),
            ([2, 3], direct(Left)),
            ([2, 4], same_side(Left, 2)),
            ([3, 4], direct(Left)),
        ],
    },
    // A pile of three left of a bar: so 1 and 3.
    Asked {
        labels: &[3, 2, 1, 4],
        record: &[0x04, 0xb5, 0x00],
        pairs: &[
            ([1, 2], direct(Below)),
            ([1, 3], same_side(Below, 2)),
            ([1, 4], direct(Left)),
            ([2, 3], direct(Below)),
            ([2, 4], direct(Left)),
            ([3, 4], direct(Left)),
        ],
    },
    // A pile of three right of a bar: so 2 and 4.
    Asked {
        labels: &[1, 4, 3, 2],
        record: &[0x04, 0x17, 0x80],
        pairs: &[
            ([1, 2], direct(Left)),
            ([1, 3], direct(Left)),
            ([1, 4], direct(Left)),
            ([2, 3], direct(Below)),
            ([2, 4], same_side(Below, 2)),
            ([3, 4], direct(Below)),
        ],
    },
    // The rooms of worked::FAR_ROOM: a bar between two pairs touches all, and
    // no room beneath it has a segment in common with one above.
    Asked {
        labels: &[4, 5, 3, 1, 2],
        record: &[0x05, 0x54, 0xe0],
        pairs: &[
            ([1, 2], direct(Left)),
            ([1, 3], direct(Below)),
            ([1, 4], apart(Below, 2)),
            ([1, 5], apart(Below, 2)),
            ([2, 3], direct(Below)),
            ([2, 4], apart(Below, 2)),
            ([2, 5], apart(Below, 2)),
            ([3, 4], direct(Below)),
            ([3, 5], direct(Below)),
            ([4, 5], direct(Left)),
        ],
    },
    // 000, Figure 5. The right edge of 1 and the left edge of 5 are on one
    // segment, with 4 under 5 and 3 above 1: direct without a shared piece of
    // edge.
    Asked {
        labels: &[4, 1, 3, 6, 5, 2],
        record: &[0x06, 0x30, 0x7e],
        pairs: &[
            ([1, 2], direct(Below)),
            ([1, 3], direct(Below)),
            ([1, 4], direct(Left)),
            ([1, 5], direct(Left)),
            ([1, 6], apart(Below, 2)),
            ([2, 3], direct(Left)),
            ([2, 4], apart(Left, 2)),
            ([2, 5], apart(Left, 2)),
            ([2, 6], direct(Left)),
            ([3, 4], direct(Left)),
            ([3, 5], direct(Left)),
            ([3, 6], direct(Below)),
            ([4, 5], direct(Below)),
            ([4, 6], apart(Below, 2)),
            ([5, 6], direct(Below)),
        ],
    },
    // 000, Figure 3. So 2 and 6.
    Asked {
        labels: &[5, 2, 1, 4, 6, 3],
        record: &[0x06, 0x36, 0x2e],
        pairs: &[
            ([1, 2], direct(Below)),
            ([1, 3], apart(Below, 2)),
            ([1, 4], direct(Below)),
            ([1, 5], direct(Left)),
            ([1, 6], apart(Below, 2)),
            ([2, 3], direct(Below)),
            ([2, 4], direct(Left)),
            ([2, 5], apart(Left, 2)),
            ([2, 6], direct(Left)),
            ([3, 4], direct(Left)),
            ([3, 5], apart(Left, 2)),
            ([3, 6], direct(Left)),
            ([4, 5], direct(Left)),
            ([4, 6], direct(Below)),
            ([5, 6], direct(Below)),
        ],
    },
    // 001, Figures 8 and 9. So 3 and 7. Of 3, 5 and 6, which stand on one
    // segment, the first and the last touch, and not directly. And 1 is left of
    // 6 through 3 and 5.
    Asked {
        labels: &[2, 7, 3, 1, 5, 6, 4],
        record: &[0x07, 0x0e, 0x8d, 0xc0],
        pairs: &[
            ([1, 2], direct(Left)),
            ([1, 3], direct(Left)),
            ([1, 4], direct(Below)),
            ([1, 5], apart(Left, 2)),
            ([1, 6], apart(Left, 3)),
            ([1, 7], apart(Left, 2)),
            ([2, 3], direct(Below)),
            ([2, 4], apart(Below, 2)),
            ([2, 5], direct(Below)),
            ([2, 6], direct(Below)),
            ([2, 7], apart(Below, 2)),
            ([3, 4], direct(Below)),
            ([3, 5], direct(Left)),
            ([3, 6], same_side(Left, 2)),
            ([3, 7], direct(Left)),
            ([4, 5], direct(Left)),
            ([4, 6], apart(Left, 2)),
            ([4, 7], direct(Left)),
            ([5, 6], direct(Left)),
            ([5, 7], direct(Below)),
            ([6, 7], direct(Below)),
        ],
    },
];
