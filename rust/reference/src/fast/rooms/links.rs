//! Which rooms follow each other in the two orders.
//!
//! Sorted by their bottoms, the rooms that stand on one level segment follow
//! each other from left to right, and sorted by their tops, those that hang
//! from it. With the ground, which hangs from the lower side of the outline,
//! and the sky, which stands on the upper side, the rooms are a floorplan
//! exactly if the two lists have the same segments, each from the same place
//! to the same place, and no place inside a segment is one where rooms meet
//! both above it and below it. For along every level line then as much ends
//! below as begins above, so from the ground to the sky each square of the
//! outline is in just one room.
//!
//! So both lists are gone through together. Where both have a corner, a level
//! segment begins; where only rooms above it meet, an upright segment begins,
//! and where only rooms below it meet, one ends.
//!
//! No branch depends on the rooms: in most lists no processor can guess which
//! of the three comes next. Instead all is written each time. What is written
//! too early is written again: the next room above has no links yet, and an
//! upright segment has not ended as long as there are rooms right of it.

use super::sorting::{sort, Edge};
use crate::Room;
use std::hint::select_unpredictable;

/// In place of a room: ground, sky, and what is beside the outline.
const NO_ROOM: u8 = u8::MAX;

/// The two orders as links from each room to the next, for fewer than `STORE`
/// rooms. Rooms go by their places in the list; `STORE` is a power of two, so
/// that the last place of the store is that of no room.
pub(super) struct Links<const STORE: usize> {
    pub(super) first_label: u8,
    pub(super) first_position: u8,
    /// With the first bit of the triple, which is 1 if the next label stands
    /// at an earlier position, that is, if it is below a level segment.
    next_label: [u16; STORE],
    next_position: [u8; STORE],
    /// The other bits.
    triples: [u8; STORE],
}

impl<const STORE: usize> Links<STORE> {
    pub(super) fn next_label(&self, room: u8) -> u8 {
        self.next_label[usize::from(room) % STORE] as u8
    }

    pub(super) fn next_position(&self, room: u8) -> u8 {
        self.next_position[usize::from(room) % STORE]
    }

    /// The triple of a room.
    pub(super) fn triple(&self, room: u8) -> u32 {
        let place = usize::from(room) % STORE;
        u32::from(self.next_label[place] >> 8) | u32::from(self.triples[place])
    }
}

/// The links between the rooms, which are not empty and have this outline, or
/// `None` if they are no floorplan. There are fewer than `STORE` of them, and
/// `PLACES` is one more.
pub(super) fn links<const STORE: usize, const PLACES: usize>(
    rooms: &[Room],
    outline: Room,
) -> Option<Links<STORE>> {
    let n = rooms.len();
    let (mut above, mut below) = ([Edge::NONE; PLACES], [Edge::NONE; PLACES]);
    sort(rooms, &mut above[..n], &mut below[1..=n])?;
    // The sky comes after all bottoms, and the ground before all tops.
    let level = |row| Edge::new(row, outline.left, outline.right, NO_ROOM);
    above[n] = level(outline.top);
    below[0] = level(outline.bottom);

    let mut segments = Segments::start();
    let mut linking = Linking::<STORE>::start(&above[..n]);
    let (mut upper, mut lower) = (0, 0);
    while upper + lower < 2 * n + 2 {
        let edges = Edges {
            above: above[upper],
            below: below[lower],
        };
        segments.go_on(edges);
        linking.go_on(edges, lower == 0);
        upper += usize::from(edges.is_above());
        lower += usize::from(edges.is_below());
    }
    segments.are_the_same().then(|| linking.links())
}

/// The next edge in each of the two lists.
#[derive(Clone, Copy)]
struct Edges {
    above: Edge,
    below: Edge,
}

impl Edges {
    /// Whether that above a level segment comes next.
    fn is_above(self) -> bool {
        self.above.start() <= self.below.start()
    }

    /// Whether that below a level segment comes next.
    fn is_below(self) -> bool {
        self.below.start() <= self.above.start()
    }

    /// Whether both do, so that a segment begins.
    fn begin(self) -> bool {
        self.above.start() == self.below.start()
    }
}

/// Whether both lists have the same level segments.
struct Segments {
    /// Where the last edges ended.
    end_above: u32,
    end_below: u32,
    /// Not 0 once something is wrong.
    wrong: u32,
}

impl Segments {
    fn start() -> Self {
        Self {
            end_above: u32::MAX,
            end_below: u32::MAX,
            wrong: 0,
        }
    }

    /// Segments end together, and only then the next one begins; along it each
    /// edge begins where the last one ended, and not above and below at once.
    #[inline(always)]
    fn go_on(&mut self, edges: Edges) {
        let (above, below) = (edges.above.start(), edges.below.start());
        let gap_above = above ^ self.end_above;
        let gap_below = below ^ self.end_below;
        let along = select_unpredictable(edges.is_above(), gap_above, gap_below);
        let anew = self.end_above ^ self.end_below | u32::from(gap_above == 0);
        self.wrong |= select_unpredictable(edges.begin(), anew, along);
        let (above, below) = (edges.above.end(), edges.below.end());
        self.end_above = select_unpredictable(edges.is_above(), above, self.end_above);
        self.end_below = select_unpredictable(edges.is_below(), below, self.end_below);
    }

    fn are_the_same(&self) -> bool {
        self.wrong == 0 && self.end_above == self.end_below
    }
}

/// The links up to some place in both lists.
struct Linking<const STORE: usize> {
    next_label: [u16; STORE],
    next_position: [u8; STORE],
    triples: [u8; STORE],
    /// By room, the one whose bottom comes before.
    before: [u8; STORE],
    /// The lowest room right of the upright segment at a room's left edge. The
    /// lowest one left of that segment is the one before it.
    lowest: [u8; STORE],
    /// The room at the lower left of the outline.
    first_position: u8,
    /// Of the level segment: the first room above it, the first one below it
    /// as a link, and the last one below it so far.
    first_above: u8,
    first_below: u16,
    last_below: u8,
}

impl<const STORE: usize> Linking<STORE> {
    /// No links yet between rooms with these bottoms.
    fn start(bottoms: &[Edge]) -> Self {
        let mut before = [NO_ROOM; STORE];
        for pair in bottoms.windows(2) {
            before[usize::from(pair[1].room()) % STORE] = pair[0].room();
        }
        Self {
            next_label: [0; STORE],
            next_position: [0; STORE],
            triples: [0; STORE],
            before,
            lowest: [NO_ROOM; STORE],
            first_position: bottoms[0].room(),
            first_above: NO_ROOM,
            first_below: u16::from(NO_ROOM),
            last_below: NO_ROOM,
        }
    }

    #[inline(always)]
    fn go_on(&mut self, edges: Edges, on_ground: bool) {
        let at = |room: u8| usize::from(room) % STORE;
        let (above, below) = (edges.above.room(), edges.below.room());
        let (is_above, begin) = (edges.is_above(), edges.begin());

        // The last position below a level segment and the first one above it;
        // or the topmost room left of an upright one and the lowest one right.
        let right = self.lowest[at(below)];
        let next = select_unpredictable(is_above, self.first_above, right);
        self.next_position[at(self.last_below)] = next;
        self.last_below = select_unpredictable(edges.is_below(), below, self.last_below);
        self.first_above = select_unpredictable(begin, above, self.first_above);

        // The lowest room left of an upright segment and the topmost one
        // right; or the last label above a level one and the first one below,
        // which the ground is not.
        let link = u16::from(!on_ground) << 10 | u16::from(below);
        self.first_below = select_unpredictable(begin, link, self.first_below);
        self.next_label[at(self.before[at(right)])] = u16::from(below);
        self.next_label[at(above)] = self.first_below;
        self.lowest[at(above)] = select_unpredictable(begin, right, above);

        // The label one position before is larger if that room is below; the
        // label before stands at an earlier position if that room is left.
        self.triples[at(above)] = u8::from(begin);
        self.triples[at(below)] |= u8::from(!is_above) << 1;
    }

    /// The links at the end, where the level segment is the upper side of the
    /// outline.
    fn links(self) -> Links<STORE> {
        Links {
            first_label: self.first_below as u8,
            first_position: self.first_position,
            next_label: self.next_label,
            next_position: self.next_position,
            triples: self.triples,
        }
    }
}
