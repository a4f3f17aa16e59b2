//! The segments in "Rooms, segments and the two orders" of the sheet.

use std::collections::BTreeSet;

use crate::edge::{Edge, Line};
use crate::Room;

/// A segment: like an edge, a piece of a line from one place on it to
/// another.
#[derive(Clone, Copy, Debug, PartialEq, Eq, PartialOrd, Ord)]
pub struct Segment(pub Edge);

/// The segments that support a room, each named for the side on which it
/// holds the room's edge.
#[derive(Clone, Copy, Debug, PartialEq, Eq)]
pub(super) struct Supports {
    pub(super) left: Segment,
    pub(super) right: Segment,
    pub(super) bottom: Segment,
    pub(super) top: Segment,
}

impl Supports {
    /// All four.
    pub(super) fn all(&self) -> [Segment; 4] {
        [self.left, self.right, self.bottom, self.top]
    }
}

/// The segments that support each room of a floorplan, in list order.
pub(super) fn supports_of(rooms: &[Room]) -> Vec<Supports> {
    let segments = Segments::of(rooms);
    rooms
        .iter()
        .map(|room| {
            let [left, right, bottom, top] = room.edges().map(|edge| segments.holding(edge));
            Supports {
                left,
                right,
                bottom,
                top,
            }
        })
        .collect()
}

/// The segments of a floorplan, each once.
///
/// # Panics
///
/// At times if there is a room without width or height, which no floorplan
/// has.
#[must_use]
pub fn segments(rooms: &[Room]) -> BTreeSet<Segment> {
    supports_of(rooms).iter().flat_map(Supports::all).collect()
}

/// The segments of a floorplan in order: by lines, and on one line by where
/// they begin.
struct Segments(Vec<Segment>);

impl Segments {
    /// A segment is a longest unbroken straight run of room edges. So it
    /// begins with a unit piece of an edge, and goes on for as long as another
    /// piece follows on its line.
    fn of(rooms: &[Room]) -> Self {
        let edges = rooms.iter().flat_map(|room| room.edges());
        let pieces = edges.flat_map(|edge| (edge.from..edge.to).map(move |at| (edge.line, at)));
        let mut pieces: Vec<(Line, u16)> = pieces.collect();
        pieces.sort_unstable();
        pieces.dedup();

        let mut runs: Vec<Segment> = Vec::new();
        for (line, from) in pieces {
            match runs.last_mut() {
                Some(Segment(run)) if (run.line, run.to) == (line, from) => run.to += 1,
                _ => runs.push(Segment(Edge {
                    line,
                    from,
                    to: from + 1,
                })),
            }
        }
        Self(runs)
    }

    /// The segment that holds an edge: of those on its line the last one that
    /// begins no later.
    fn holding(&self, edge: Edge) -> Segment {
        let begins_by_then = |run: &Segment| (run.0.line, run.0.from) <= (edge.line, edge.from);
        self.0[self.0.partition_point(begins_by_then) - 1]
    }
}

#[cfg(test)]
mod tests {
    use std::collections::BTreeSet;

    use super::{segments, supports_of, Segment};
    use crate::cases::rooms;
    use crate::drawing;
    use crate::edge::{Edge, Line};

    #[test]
    fn the_segments_of_a_pinwheel() {
        // The drawing in the sheet, and its segments read off by hand.
        let rooms = drawing(&[4, 1, 3, 5, 2]);
        let upright = [(0, 0, 5), (2, 1, 5), (3, 0, 4), (5, 0, 5)];
        let level = [(0, 0, 5), (1, 0, 3), (4, 2, 5), (5, 0, 5)];
        let segment = |line, from, to| Segment(Edge { line, from, to });
        let upright = upright.map(|(x, from, to)| segment(Line::Vertical(x), from, to));
        let level = level.map(|(y, from, to)| segment(Line::Horizontal(y), from, to));
        let expected: BTreeSet<Segment> = upright.into_iter().chain(level).collect();
        assert_eq!(segments(&rooms), expected);
    }

    #[test]
    fn two_runs_on_one_line_are_two_segments() {
        // Two pairs of rooms, one above the other with a bar between: both
        // are parted at x = 2, and no segment crosses the bar.
        let pair = |y| [[0, y, 2, y + 1], [2, y, 4, y + 1]];
        let rooms = rooms(&[&pair(0)[..], &[[0, 1, 4, 2]], &pair(2)].concat());
        let supports = supports_of(&rooms);
        assert_eq!(supports[0].right, supports[1].left);
        assert_eq!(supports[3].right, supports[4].left);
        assert_ne!(supports[0].right, supports[3].right);
        assert_eq!(supports[0].left, supports[3].left);
        assert_eq!(segments(&rooms).len(), 5 + 3);
    }
}
