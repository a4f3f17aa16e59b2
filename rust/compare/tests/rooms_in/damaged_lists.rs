//! Lists with damage: each refusal for its own cause, and in the order
//! 1, 2, 3, 4, 5, 20 where there are several.

use compare::room_damage::{change_a_corner, suited_plan, RoomDamage};
use compare::{each_times, Floorplan, GivenRooms, Tally};
use reference::cases::walk::biased_list;
use reference::cases::Random;
use reference::Refusal;

/// A moved drawing that every damage can be done to.
fn some_plan(n: usize, random: &mut Random) -> Floorplan {
    suited_plan(&biased_list(n, random).labels, random)
}

/// Compares lists with every damage, alone and with every other, so many times,
/// in three cases each, and prints the counts.
fn compare_damaged(
    name: &'static str,
    seed: u64,
    lists: usize,
    compare: impl Fn(&mut Tally, &mut Random, RoomDamage),
) {
    let damages = each_times(RoomDamage::all(), lists);
    let tally = Tally::of_rounds(name, seed, damages, compare);
    let counts = [32, 16, 8, 4, 2, 1].map(|combinations| combinations * 3 * lists);
    tally.expect_refused(Refusal::OF_ROOMS, counts);
    assert_eq!(tally.accepted(), 2 * lists);
    tally.finish(RoomDamage::COUNT * 3 * lists);
}

#[test]
fn every_damage_alone_and_with_every_other_in_small_lists() {
    let name = "damaged lists of up to 20 rooms";
    compare_damaged(name, 111, 250, |tally, random, damage| {
        let n = random.between(2, 20 - RoomDamage::MORE);
        let plan = some_plan(n, random);
        let given = GivenRooms::new(damage.rooms(&plan, random));
        let refusal = given.answer.as_ref().err().copied();
        assert_eq!(refusal, damage.refusal(), "{given}");
        tally.rooms(&given);
    });
}

#[test]
fn every_damage_alone_and_with_every_other_in_long_lists() {
    let name = "damaged lists of up to 255 rooms";
    compare_damaged(name, 112, 150, |tally, random, damage| {
        let n = random.between(21, 255 - RoomDamage::MORE);
        let mut plan = some_plan(n, random);
        if let Some(refusal) = damage.refusal() {
            let rooms = damage.rooms(&plan, random);
            tally.rooms(&GivenRooms::known(rooms, Err(refusal)));
        } else {
            plan.name_and_shuffle(random);
            tally.rooms(&plan.given());
        }
    });
}

#[test]
fn one_corner_changed() {
    const LISTS: usize = 6000;
    let name = "lists with one corner changed";
    let tally = Tally::of_rounds(name, 113, 0..LISTS, |tally, random, _| {
        let n = random.between(1, 12);
        let mut plan = Floorplan::drawn(&biased_list(n, random).labels);
        if random.below(2) == 0 {
            plan.stretch(random);
        }
        let mut rooms = plan.rooms();
        change_a_corner(&mut rooms, random);
        tally.rooms(&GivenRooms::new(rooms));
    });
    tally.expect_often(500, &Refusal::OF_ROOMS[1..4]);
    assert!(tally.accepted() > 500);
    tally.finish(3 * LISTS);
}

#[test]
fn a_room_left_out_or_handed_in_twice() {
    const LISTS: usize = 1000;
    let name = "lists with a room left out, or twice";
    let tally = Tally::of_rounds(name, 114, 0..LISTS, |tally, random, _| {
        let n = random.between(2, 16);
        let mut rooms = some_plan(n, random).rooms();
        let room = rooms.swap_remove(random.below(n));
        tally.rooms(&GivenRooms::new(rooms.clone()));
        rooms.extend([room, room]);
        let given = GivenRooms::new(rooms);
        assert_eq!(given.answer, Err(Refusal::SharedSquare), "{given}");
        tally.rooms(&given);
    });
    // Where a room as long as a side of the outline is left out, a plan of
    // one room less is left.
    assert!(tally.accepted() > 100);
    tally.expect_often(500, &[Refusal::OpenSquare]);
    tally.finish(2 * 3 * LISTS);
}
