//! Floorplans whose labels and positions are known from the way in which they
//! were made.

use crate::given::GivenRooms;
use reference::cases::names::some_names;
use reference::cases::sizes::{Placing, SizedRecord};
use reference::cases::Random;
use reference::{drawing, record_of, triples, Numbering, Room};
use std::collections::BTreeSet;

/// A room with its label and its position.
#[derive(Clone, Copy, Debug)]
struct Placed {
    room: Room,
    label: u8,
    position: u8,
}

/// A floorplan of 1 to 255 rooms, in some order.
#[derive(Clone, Debug)]
pub struct Floorplan(Vec<Placed>);

/// What a room is cut into: two rooms side by side, two one on another, or one
/// of the two pinwheels.
const CUTS: [&[u8]; 4] = [&[1, 2], &[2, 1], &[4, 1, 3, 5, 2], &[2, 5, 3, 1, 4]];

impl Floorplan {
    /// The grid drawing of a Baxter list, by position.
    #[must_use]
    pub fn drawn(labels: &[u8]) -> Self {
        let numbers = labels.iter().zip(1..=u8::MAX);
        let placed = drawing(labels).into_iter().zip(numbers);
        let placed = placed.map(|(room, (&label, position))| Placed {
            room,
            label,
            position,
        });
        Self(placed.collect())
    }

    /// A plan of `n` rooms in a given box: one room, in which again and again
    /// a room is cut in two or becomes a pinwheel. The box must be wide and
    /// high enough for that.
    pub fn nested(n: usize, outline: Room, random: &mut Random) -> Self {
        let mut plan = Self(vec![Placed {
            room: outline,
            label: 1,
            position: 1,
        }]);
        while plan.0.len() < n {
            let list = random.pick(&CUTS);
            if plan.0.len() + list.len() <= n + 1 {
                let at = random.below(plan.0.len());
                plan.fill(at, list, random);
            }
        }
        plan
    }

    /// Puts a plan in the place of a room: the rooms of `list`, drawn on lines
    /// at random. Leaves all as it is where the room is too small for it or
    /// four rooms would meet.
    fn fill(&mut self, at: usize, list: &[u8], random: &mut Random) {
        let Placed {
            room,
            label,
            position,
        } = self.0[at];
        let across = lines(room.left, room.right, list.len() + 1, random);
        let up = lines(room.bottom, room.top, list.len() + 1, random);
        let (Some(across), Some(up)) = (across, up) else {
            return;
        };
        let mut filling = Self::drawn(list);
        filling.move_lines(|x| across[usize::from(x)], |y| up[usize::from(y)]);
        let is_new = |point: &(u16, u16)| !corners(room).contains(point);
        let mut new_corners = filling.0.iter().flat_map(|placed| corners(placed.room));
        if new_corners.any(|point| is_new(&point) && self.has_corner(point)) {
            return;
        }

        let more = u8::try_from(list.len() - 1).expect("at most 255 rooms");
        self.0.swap_remove(at);
        for other in &mut self.0 {
            other.label += if other.label > label { more } else { 0 };
            other.position += if other.position > position { more } else { 0 };
        }
        self.0.extend(filling.0.iter().map(|inner| Placed {
            room: inner.room,
            label: label - 1 + inner.label,
            position: position - 1 + inner.position,
        }));
    }

    /// Moves all lines across, and all lines up, without changing their order:
    /// close together or far apart, anywhere, and sometimes from 0 to 65,535.
    pub fn stretch(&mut self, random: &mut Random) {
        let across = self.0.iter().flat_map(|p| [p.room.left, p.room.right]);
        let across = spread(across.collect(), random);
        let up = self.0.iter().flat_map(|p| [p.room.bottom, p.room.top]);
        let up = spread(up.collect(), random);
        self.move_lines(|x| at_rank(&across, x), |y| at_rank(&up, y));
    }

    /// Slides single inner segments, in `tries` tries, as far as the rooms on
    /// both sides of them allow and so that no four rooms meet.
    pub fn slide(&mut self, tries: usize, random: &mut Random) {
        for _ in 0..tries {
            let turned = random.below(2) == 0;
            if turned {
                self.turn();
            }
            self.slide_upright(random);
            if turned {
                self.turn();
            }
        }
    }

    /// Tries to slide the segment on the right of some room.
    fn slide_upright(&mut self, random: &mut Random) {
        let Room {
            right: x,
            bottom,
            top,
            ..
        } = random.pick(&self.0).room;
        let (mut from, mut to) = (bottom, top);
        let adjoins = |room: Room, from, to| {
            (room.left == x || room.right == x) && room.bottom <= to && room.top >= from
        };
        let mut known = (to, from);
        while known != (from, to) {
            known = (from, to);
            for Placed { room, .. } in &self.0 {
                if adjoins(*room, from, to) {
                    (from, to) = (from.min(room.bottom), to.max(room.top));
                }
            }
        }
        let held = |room: &Room| adjoins(*room, from, to);
        let rooms = || self.0.iter().map(|placed| placed.room).filter(held);
        let start = rooms().filter(|room| room.right == x).map(|room| room.left);
        let end = rooms().filter(|room| room.left == x).map(|room| room.right);
        // The right side of the outline has no room right of it.
        let (Some(start), Some(end)) = (start.max(), end.min()) else {
            return;
        };
        let other = random.number(start + 1, end - 1);
        if self.has_corner((other, from)) || self.has_corner((other, to)) {
            return;
        }
        for Placed { room, .. } in self.0.iter_mut().filter(|placed| held(&placed.room)) {
            let edge = [&mut room.left, &mut room.right];
            edge.into_iter()
                .filter(|e| **e == x)
                .for_each(|e| *e = other);
        }
    }

    /// Puts the rooms in a random order.
    pub fn shuffle(&mut self, random: &mut Random) {
        random.shuffle(&mut self.0);
    }

    /// Gives the rooms these names, in the order in which they stand.
    pub fn put_names(&mut self, names: &[u16]) {
        for (placed, &name) in self.0.iter_mut().zip(names) {
            placed.room.name = name;
        }
    }

    /// Gives the rooms [some names](some_names), and puts them in a random
    /// order.
    pub fn name_and_shuffle(&mut self, random: &mut Random) {
        self.put_names(&some_names(self.0.len(), random));
        self.shuffle(random);
    }

    /// Stretches the plan, slides its segments in so many tries, gives the
    /// rooms other names and shuffles them: what comes out is equivalent.
    pub fn move_about(&mut self, slides: usize, random: &mut Random) {
        self.stretch(random);
        self.slide(slides, random);
        self.name_and_shuffle(random);
    }

    /// The rooms.
    #[must_use]
    pub fn rooms(&self) -> Vec<Room> {
        self.0.iter().map(|placed| placed.room).collect()
    }

    /// The record of the label list, the labels and positions, and the names.
    ///
    /// # Panics
    ///
    /// If there are no rooms, or over 255.
    #[must_use]
    pub fn numbering(&self) -> Numbering {
        let mut by_position = self.0.clone();
        by_position.sort_by_key(|placed| placed.position);
        let list: Vec<u8> = by_position.iter().map(|placed| placed.label).collect();
        let n = u8::try_from(list.len()).expect("at most 255 rooms");
        Numbering {
            record: record_of(n, &triples(&list)),
            labels: self.0.iter().map(|placed| placed.label).collect(),
            positions: self.0.iter().map(|placed| placed.position).collect(),
            names: by_position.iter().map(|placed| placed.room.name).collect(),
        }
    }

    /// The record with the widths and heights of the rooms, and where they stand,
    /// each by position.
    ///
    /// # Panics
    ///
    /// As [`Self::numbering`].
    #[must_use]
    pub fn sized(&self) -> (SizedRecord, Placing) {
        let mut by_position = self.0.clone();
        by_position.sort_by_key(|placed| placed.position);
        let rooms = || by_position.iter().map(|placed| placed.room);
        let widths: Vec<u16> = rooms().map(|room| room.right - room.left).collect();
        let heights: Vec<u16> = rooms().map(|room| room.top - room.bottom).collect();
        let placing = Placing {
            x: rooms().map(|room| u32::from(room.left)).collect(),
            y: rooms().map(|room| u32::from(room.bottom)).collect(),
        };
        let record = self.numbering().record;
        (SizedRecord::new(record, widths, heights), placing)
    }

    /// The room list with its answer, which is known.
    #[must_use]
    pub fn given(&self) -> GivenRooms {
        GivenRooms::known(self.rooms(), Ok(self.numbering()))
    }

    /// Trades across and up. The labels and positions are then not those of
    /// the rooms, until the plan is turned again.
    fn turn(&mut self) {
        for Placed { room, .. } in &mut self.0 {
            *room = Room {
                left: room.bottom,
                bottom: room.left,
                right: room.top,
                top: room.right,
                name: room.name,
            };
        }
    }

    fn move_lines(&mut self, across: impl Fn(u16) -> u16, up: impl Fn(u16) -> u16) {
        for Placed { room, .. } in &mut self.0 {
            *room = Room {
                left: across(room.left),
                bottom: up(room.bottom),
                right: across(room.right),
                top: up(room.top),
                name: room.name,
            };
        }
    }

    fn has_corner(&self, point: (u16, u16)) -> bool {
        let mut rooms = self.0.iter();
        rooms.any(|placed| corners(placed.room).contains(&point))
    }
}

/// The corners of a room.
fn corners(room: Room) -> [(u16, u16); 4] {
    [
        (room.left, room.bottom),
        (room.right, room.bottom),
        (room.left, room.top),
        (room.right, room.top),
    ]
}

/// A box: as large as there is, or some other one that leaves room enough.
pub fn some_box(random: &mut Random) -> Room {
    let mut side = || {
        let width = random.pick(&[65_535, 65_535, 30_000, 4000]);
        let anywhere = random.between(0, 65_535 - width);
        let first = random.pick(&[0, 65_535 - width, anywhere]);
        let end = |number| u16::try_from(number).expect("at most 65,535");
        (end(first), end(first + width))
    };
    let ((left, right), (bottom, top)) = (side(), side());
    Room::from([left, bottom, right, top])
}

/// So many rising numbers, of which the first and the last are given, if there
/// are enough between them.
fn lines(first: u16, last: u16, count: usize, random: &mut Random) -> Option<Vec<u16>> {
    if usize::from(last - first) + 1 < count {
        return None;
    }
    let mut lines = BTreeSet::from([first, last]);
    while lines.len() < count {
        lines.insert(random.number(first, last));
    }
    Some(lines.into_iter().collect())
}

/// The given numbers in rising order, each with its place after a stretch.
fn spread(numbers: BTreeSet<u16>, random: &mut Random) -> Vec<(u16, u16)> {
    let least = u16::try_from(numbers.len() - 1).expect("at most 65,536 numbers");
    let width = random.pick(&[least, 2 * least, 40 * least, u16::MAX]);
    let first = random.number(0, u16::MAX - width);
    let places = lines(first, first + width, numbers.len(), random);
    let places = places.expect("the width is no less than the least one");
    numbers.into_iter().zip(places).collect()
}

/// The place of a number after a stretch.
fn at_rank(spread: &[(u16, u16)], number: u16) -> u16 {
    let found = spread.binary_search_by_key(&number, |&(number, _)| number);
    spread[found.expect("every number has its place")].1
}
