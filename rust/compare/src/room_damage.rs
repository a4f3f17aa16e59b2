//! Room lists with damage that is known.

use crate::causes::first_cause;
use crate::floorplan::Floorplan;
use reference::cases::names::{named, put_one_twice, some_names};
use reference::cases::Random;
use reference::{Refusal, Room};

/// What is wrong with a room list: of each cause of a refusal, in the sheet's
/// order, whether it is there. There may be any number of them at once.
#[derive(Clone, Copy, Debug)]
pub struct RoomDamage([bool; 6]);

impl RoomDamage {
    /// The number of combinations.
    pub const COUNT: usize = 64;

    /// The most rooms that a damage adds to a list, unless it is that there
    /// are too many.
    pub const MORE: usize = 5;

    /// The damage that is refused so, and no other.
    #[must_use]
    pub fn only(refusal: Refusal) -> Self {
        Self(Refusal::OF_ROOMS.map(|cause| cause == refusal))
    }

    /// Every combination, no damage too.
    pub fn all() -> impl Iterator<Item = Self> {
        (0..Self::COUNT).map(|bits| Self([1, 2, 4, 8, 16, 32].map(|worth| bits & worth != 0)))
    }

    /// The refusal that comes first in the sheet's order.
    #[must_use]
    pub fn refusal(self) -> Option<Refusal> {
        first_cause(Refusal::OF_ROOMS, self.0)
    }

    /// The rooms of a plan with this damage and no other, in a random order and
    /// with other names. The plan is [suited](are_suited).
    pub fn rooms(self, plan: &Floorplan, random: &mut Random) -> Vec<Room> {
        let [too_many, empty_room, shared_square, open_square, four_meet, name_twice] = self.0;
        let mut rooms = plan.rooms();
        if four_meet {
            // Edges that can still be drawn back, if need be.
            let least = 1 + u16::from(open_square);
            cut_in_four(&mut rooms, least, random);
        }
        if open_square {
            draw_back_an_edge(&mut rooms, random);
        }
        if shared_square {
            share_squares(&mut rooms, random);
        }
        if empty_room {
            empty_a_room(&mut rooms, random);
        }
        if too_many {
            let count = random.pick(&[256, 257, 300, 1000]);
            rooms = rooms.into_iter().cycle().take(count).collect();
        }
        // All new, since a room that was copied has the name of the other one.
        rooms = named(&rooms, &some_names(rooms.len(), random));
        if name_twice {
            put_one_twice(&mut rooms, random);
        }
        random.shuffle(&mut rooms);
        rooms
    }
}

/// Whether every damage can be done to the plan of these rooms: to some room
/// that is wide and high enough to be cut, and whose right or top is not on the
/// outline.
#[must_use]
pub fn are_suited(rooms: &[Room]) -> bool {
    let is_inside = |room: &Room| {
        let ends_first = |other: &Room| other.right > room.right || other.top > room.top;
        rooms.iter().any(ends_first)
    };
    let is_large = |room: &Room| room.right - room.left >= 4 && room.top - room.bottom >= 4;
    rooms.iter().any(|room| is_large(room) && is_inside(room))
}

/// A moved drawing of at least two labels that every damage can be done to.
pub fn suited_plan(labels: &[u8], random: &mut Random) -> Floorplan {
    let mut plan = Floorplan::drawn(labels);
    loop {
        plan.stretch(random);
        plan.slide(4, random);
        if are_suited(&plan.rooms()) {
            return plan;
        }
    }
}

/// Puts one of the four numbers of a room at an end of what there is, at a
/// line of another room, or a step further. The list is not empty.
pub fn change_a_corner(rooms: &mut [Room], random: &mut Random) {
    let other = random.pick(rooms);
    let at = random.below(rooms.len());
    let room = &mut rooms[at];
    let number = random.pick(&[
        0,
        u16::MAX,
        other.left,
        other.top,
        room.left.wrapping_sub(1),
        room.top.wrapping_add(1),
    ]);
    match random.below(4) {
        0 => room.left = number,
        1 => room.bottom = number,
        2 => room.right = number,
        _ => room.top = number,
    }
}

/// One of the rooms that fit, by its place.
fn some_room(rooms: &[Room], fits: impl Fn(&Room) -> bool, random: &mut Random) -> usize {
    let places: Vec<usize> = (0..rooms.len()).filter(|&at| fits(&rooms[at])).collect();
    random.pick(&places)
}

/// Puts four rooms that meet at a point in the place of one, each of them at
/// least so wide and high.
fn cut_in_four(rooms: &mut Vec<Room>, least: u16, random: &mut Random) {
    let is_wide = |room: &Room| (room.right - room.left).min(room.top - room.bottom) >= 2 * least;
    let at = some_room(rooms, is_wide, random);
    let room = rooms.swap_remove(at);
    let x = random.number(room.left + least, room.right - least);
    let y = random.number(room.bottom + least, room.top - least);
    for (left, right) in [(room.left, x), (x, room.right)] {
        for (bottom, top) in [(room.bottom, y), (y, room.top)] {
            rooms.push(Room::from([left, bottom, right, top]));
        }
    }
}

/// Draws an edge of a room back that is not on the outline.
fn draw_back_an_edge(rooms: &mut [Room], random: &mut Random) {
    let right = rooms.iter().map(|room| room.right).max();
    let top = rooms.iter().map(|room| room.top).max();
    let has_right = |room: &Room| Some(room.right) < right && room.right - room.left >= 2;
    let has_top = |room: &Room| Some(room.top) < top && room.top - room.bottom >= 2;
    let at = some_room(rooms, |room| has_right(room) || has_top(room), random);
    let room = &mut rooms[at];
    if has_right(room) {
        room.right = random.number(room.left + 1, room.right - 1);
    } else {
        room.top = random.number(room.bottom + 1, room.top - 1);
    }
}

/// Adds a room that is equal to another one, or a unit square of one, or one
/// as large as the outline.
fn share_squares(rooms: &mut Vec<Room>, random: &mut Random) {
    let mut added = random.pick(rooms);
    match random.below(3) {
        0 => {}
        1 => {
            added.left = random.number(added.left, added.right - 1);
            added.bottom = random.number(added.bottom, added.top - 1);
            (added.right, added.top) = (added.left + 1, added.bottom + 1);
        }
        _ => {
            for room in &*rooms {
                added.left = added.left.min(room.left);
                added.bottom = added.bottom.min(room.bottom);
                added.right = added.right.max(room.right);
                added.top = added.top.max(room.top);
            }
        }
    }
    rooms.push(added);
}

/// Makes a room flat or turns it inside out.
fn empty_a_room(rooms: &mut Vec<Room>, random: &mut Random) {
    let at = random.below(rooms.len());
    let room = &mut rooms[at];
    match random.below(5) {
        0 => room.right = room.left,
        1 => room.top = room.bottom,
        2 => std::mem::swap(&mut room.left, &mut room.right),
        3 => std::mem::swap(&mut room.bottom, &mut room.top),
        _ => {
            let flat = Room {
                right: room.left,
                ..*room
            };
            rooms.push(flat);
        }
    }
}
