//! When two rooms touch. The request M-101 says it, and its rule replaces the
//! one in "The grid drawing" of the sheet. The same segments say which rooms
//! are in a direct relation.

use super::chains::{is_directly, Chains};
use super::ranks::{far_sides, ranked};
use super::segments::{supports_of, Segment, Supports};
use crate::edge::Line;
use crate::{Room, Side};

/// Which rooms of a floorplan touch: "Two rooms now touch when one segment
/// that is not an outline side supports both, from the same side or from
/// opposite sides." And which of them are directly left of, right of, above or
/// below which.
///
/// The segments are found once, and then all pairs can be asked for: two
/// different rooms, each named by its place in the list, from 0 on.
#[derive(Clone, Debug)]
pub struct Contacts {
    /// The segments that support each room, in list order.
    supports: Vec<Supports>,
    /// Where the right and the top side of the outline are. The other two are
    /// at 0.
    far_sides: (u16, u16),
}

impl Contacts {
    /// Those of a floorplan. The rooms may stand in any order, and the outline
    /// anywhere.
    ///
    /// # Panics
    ///
    /// As [`segments`](super::segments).
    #[must_use]
    pub fn of(rooms: &[Room]) -> Self {
        // By ranks the unit pieces are few, however long the edges are.
        let rooms = ranked(rooms);
        Self {
            supports: supports_of(&rooms),
            far_sides: far_sides(&rooms),
        }
    }

    /// Whether two rooms touch.
    ///
    /// The sides are not asked for. All edges on one segment have its
    /// direction, so it supports each room from the left or the right, or
    /// each from below or above: two of its rooms are always on the same side
    /// or on opposite sides.
    ///
    /// # Panics
    ///
    /// If the list has no such place.
    #[must_use]
    pub fn touch(&self, first: usize, second: usize) -> bool {
        let of_second = self.supports[second].all();
        let mut of_first = self.supports[first].all().into_iter();
        of_first.any(|segment| self.is_inner(segment) && of_second.contains(&segment))
    }

    /// Whether the first room is directly on this side of the second.
    ///
    /// # Panics
    ///
    /// If the list has no such place.
    #[must_use]
    pub fn directly(&self, side: Side, first: usize, second: usize) -> bool {
        is_directly(side, &self.supports[first], &self.supports[second])
    }

    /// The chains of direct steps, in a floorplan of at most 255 rooms. That
    /// takes longer than to find the segments.
    #[must_use]
    pub fn chains(&self) -> Chains {
        Chains::of(&self.supports)
    }

    /// Whether a segment is not an outline side.
    fn is_inner(&self, segment: Segment) -> bool {
        let (right, top) = self.far_sides;
        match segment.0.line {
            Line::Vertical(x) => x != 0 && x != right,
            Line::Horizontal(y) => y != 0 && y != top,
        }
    }
}

#[cfg(test)]
mod tests {
    use super::Contacts;
    use crate::cases::rooms;
    use crate::Room;

    /// The pairs of rooms that touch, by their places in the list.
    fn touching(list: &[Room]) -> Vec<(usize, usize)> {
        let contacts = Contacts::of(list);
        let pairs = (0..list.len()).flat_map(|a| (a + 1..list.len()).map(move |b| (a, b)));
        for (a, b) in pairs.clone() {
            assert_eq!(contacts.touch(a, b), contacts.touch(b, a), "{list:?}");
        }
        pairs.filter(|&(a, b)| contacts.touch(a, b)).collect()
    }

    #[test]
    fn rooms_touch_along_a_segment_wherever_it_slides() {
        // Two rows of two rooms: the upper cut left of the lower one, and
        // right of it. The segment between the rows supports all four, though
        // each time two rooms share no piece of edge.
        let all = [(0, 1), (0, 2), (0, 3), (1, 2), (1, 3), (2, 3)];
        for cut in [1, 3] {
            let lower = [[0, 0, 2, 1], [2, 0, 4, 1]];
            let upper = [[0, 1, cut, 2], [cut, 1, 4, 2]];
            assert_eq!(touching(&rooms(&[lower, upper].concat())), all);
        }
    }

    #[test]
    fn outline_sides_do_not_count() {
        assert_eq!(touching(&rooms(&[[3, 5, 9, 6]])), []);
        // A row and a pile of three: the two ends hang on the same two sides
        // of the outline, wherever that starts and ends.
        for (x, y) in [(0, 0), (0, 7), (65_532, 65_534)] {
            let row = [0, 1, 2].map(|step| [x + step, y, x + step + 1, y + 1]);
            assert_eq!(touching(&rooms(&row)), [(0, 1), (1, 2)]);
            let pile = row.map(|[left, bottom, right, top]| [bottom, left, top, right]);
            assert_eq!(touching(&rooms(&pile)), [(0, 1), (1, 2)]);
        }
    }

    #[test]
    fn a_line_is_not_a_segment() {
        // Two pairs of rooms with a bar between, both parted at x = 20,000:
        // these are two segments, and the bar parts the pairs.
        let (x, right) = (20_000, 65_535);
        let pair = |y| [[0, y, x, y + 1], [x, y, right, y + 1]];
        let list = [&pair(0)[..], &[[0, 1, right, 65_000]], &pair(65_000)].concat();
        let expected = [(0, 1), (0, 2), (1, 2), (2, 3), (2, 4), (3, 4)];
        assert_eq!(touching(&rooms(&list)), expected);
    }

    #[test]
    fn the_outline_of_some_rooms_is_an_inner_line_of_others() {
        // Three rooms under a bar: its bottom supports them from one side.
        // Without the bar the same line is a side of the outline.
        let row = [[0, 0, 1, 4], [1, 0, 2, 4], [2, 0, 3, 4]];
        let under_a_bar = [&row[..], &[[0, 4, 3, 5]]].concat();
        assert_eq!(touching(&rooms(&row)), [(0, 1), (1, 2)]);
        assert_eq!(touching(&rooms(&under_a_bar)).len(), 6);
    }
}
