//! Inputs of "Rooms in".

use crate::size::{by_definitions, capacities, some_count, some_walk};
use compare::floorplan::some_box;
use compare::room_damage::{are_suited, change_a_corner, RoomDamage};
use compare::{Floorplan, GivenRooms, Tally};
use reference::cases::names::{named, put_one_twice};
use reference::cases::Random;
use reference::{Refusal, Room};

/// Lists with damage for each floorplan.
const DAMAGED: usize = 3;

/// Lists of so many rooms are always held to the definitions.
const SHORT: usize = 6;

/// Nested plans have at most so many rooms; larger ones take long to make.
const NESTED: usize = 60;

/// Compares a floorplan, whose answer is known from the way in which it was
/// made, and the same rooms with damage.
pub fn compare_some(tally: &mut Tally, random: &mut Random) {
    let plan = some_plan(random);
    compare(tally, &plan.given(), random);
    for _ in 0..DAMAGED {
        let rooms = damaged(&plan, random);
        let given = if by_definitions(rooms.len(), SHORT, random) {
            GivenRooms::new(rooms)
        } else {
            GivenRooms::quick(rooms)
        };
        compare(tally, &given, random);
    }
}

/// Compares a list in slices of some lengths.
fn compare(tally: &mut Tally, given: &GivenRooms, random: &mut Random) {
    let _ = tally.rooms_in(given, capacities(given.needed(), random));
}

/// A floorplan: a drawing or a nested plan, stretched, slid, named and shuffled.
pub fn some_plan(random: &mut Random) -> Floorplan {
    let mut plan = match random.below(4) {
        0 => {
            let n = some_count(random).min(NESTED);
            Floorplan::nested(n, some_box(random), random)
        }
        _ => Floorplan::drawn(&some_walk(random).labels),
    };
    if random.below(4) > 0 {
        plan.stretch(random);
    }
    if random.below(2) == 0 {
        plan.slide(4, random);
    }
    plan.name_and_shuffle(random);
    plan
}

/// The rooms of a plan with damage, or others.
fn damaged(plan: &Floorplan, random: &mut Random) -> Vec<Room> {
    let mut rooms = plan.rooms();
    let at = random.below(rooms.len());
    match random.below(16) {
        0..=4 => {
            for _ in 0..random.pick(&[1, 1, 2, 3]) {
                change_a_corner(&mut rooms, random);
            }
        }
        5 => rooms[at] = moved(rooms[at], random),
        6 | 7 => drop(rooms.swap_remove(at)),
        8 => rooms.push(rooms[at]),
        9 => {
            let count = random.pick(&[255, 256, 257, 300]);
            rooms = rooms.into_iter().cycle().take(count).collect();
        }
        10 | 11 => return two_columns(random),
        12 => return any_rooms(random),
        13 if rooms.len() > 1 => put_one_twice(&mut rooms, random),
        _ if are_suited(&rooms) => return some_damage(random).rooms(plan, random),
        _ => change_a_corner(&mut rooms, random),
    }
    rooms
}

/// One or more causes, but not that there are too many rooms.
fn some_damage(random: &mut Random) -> RoomDamage {
    let few = |damage: &RoomDamage| damage.refusal() != Some(Refusal::ListLength);
    let damages: Vec<RoomDamage> = RoomDamage::all().filter(few).collect();
    random.pick(&damages)
}

/// A room that was moved by a step, as far as there are numbers.
fn moved(room: Room, random: &mut Random) -> Room {
    let (across, up) = random.pick(&[(1, 0), (-1, 0), (0, 1), (0, -1)]);
    Room {
        left: room.left.saturating_add_signed(across),
        bottom: room.bottom.saturating_add_signed(up),
        right: room.right.saturating_add_signed(across),
        top: room.top.saturating_add_signed(up),
        name: room.name,
    }
}

/// Two columns of rooms with small names. They are a floorplan unless both are
/// parted at the same height.
fn two_columns(random: &mut Random) -> Vec<Room> {
    let height = random.pick(&[2, 5, 20, 1000, u16::MAX]);
    let mut rooms = Vec::new();
    for (left, right) in [(0, 3), (3, 4)] {
        let mut bottom = 0;
        while bottom < height {
            let top = bottom + 1 + random.below(usize::from(height - bottom)) as u16;
            rooms.push(Room::from([left, bottom, right, top]));
            bottom = top;
        }
    }
    random.shuffle(&mut rooms);
    // Up to so large a name that a small plan often has none twice.
    let names: Vec<u16> = rooms.iter().map(|_| random.number(0, 40)).collect();
    named(&rooms, &names)
}

/// A few rooms, or none, with any numbers or with small ones.
fn any_rooms(random: &mut Random) -> Vec<Room> {
    let (count, end) = (random.below(7), random.pick(&[3, 5, 65_536]));
    let mut number = || random.below(end) as u16;
    let mut room = || Room {
        name: number(),
        ..Room::from([number(), number(), number(), number()])
    };
    (0..count).map(|_| room()).collect()
}
