//! The edges of a room.

use crate::Room;

/// An edge of a room: a piece of a line from one place on it to another.
#[derive(Clone, Copy, Debug, PartialEq, Eq, PartialOrd, Ord)]
pub struct Edge {
    /// The line that it is on.
    pub line: Line,
    /// Where it begins on that line.
    pub from: u16,
    /// Where it ends.
    pub to: u16,
}

/// A grid line.
#[derive(Clone, Copy, Debug, PartialEq, Eq, PartialOrd, Ord)]
pub enum Line {
    /// At this many steps across.
    Vertical(u16),
    /// At this many steps up.
    Horizontal(u16),
}

impl Room {
    /// The edges: left, right, bottom, top.
    pub(crate) fn edges(self) -> [Edge; 4] {
        let upright = |at| Edge {
            line: Line::Vertical(at),
            from: self.bottom,
            to: self.top,
        };
        let level = |at| Edge {
            line: Line::Horizontal(at),
            from: self.left,
            to: self.right,
        };
        [
            upright(self.left),
            upright(self.right),
            level(self.bottom),
            level(self.top),
        ]
    }
}
