//! Names on rooms: where they are returned, and which of them make a list
//! refused. That 20 comes after 1 to 5 is among the damaged lists, and that
//! nothing is written then is part of every comparison.

use compare::rooms_in::library_numbering;
use compare::{of_library, repeat, report, Floorplan, GivenRooms, Tally};
use reference::cases::names::{
    each_naming, last_names, multiples, named, random_names, some_names, NAMINGS,
    NAMINGS_WITHOUT_REPEAT,
};
use reference::cases::walk::random_list;
use reference::cases::{rooms, worked, Random};
use reference::{Refusal, Room};

/// Counts of rooms near those at which a version goes another way: eights,
/// powers of two, and the longest list.
const COUNTS: [usize; 20] = [
    2, 3, 5, 7, 8, 9, 15, 16, 17, 31, 32, 33, 40, 47, 48, 49, 63, 64, 65, 255,
];

/// A moved drawing of `n` labels.
fn some_plan(n: usize, random: &mut Random) -> Floorplan {
    let mut plan = Floorplan::drawn(&random_list(n, random).labels);
    plan.stretch(random);
    plan.shuffle(random);
    plan
}

#[test]
fn names_of_a_worked_plan_are_returned_by_position() {
    let mut tally = Tally::new("names of a worked plan");
    // The pinwheel that the sheet draws, from its last position to its first.
    let corners: Vec<[u16; 4]> = worked::DRAWING.into_iter().rev().collect();
    for (in_list, by_position) in [
        ([0; 5], [0; 5]),
        ([50, 40, 30, 20, 10], [10, 20, 30, 40, 50]),
        ([u16::MAX, 0, 1, 0, 0], [0, 0, 1, 0, u16::MAX]),
    ] {
        let given = GivenRooms::new(named(&rooms(&corners), &in_list));
        let answer = given.answer.as_ref().expect("no name is there twice");
        assert_eq!(answer.names, by_position, "{given}");
        assert_eq!(answer.positions, [5, 4, 3, 2, 1], "{given}");
        assert_eq!(answer.record, worked::LISTED, "{given}");
        tally.rooms(&given);
    }
    tally.finish_in_threes(3);
}

#[test]
fn every_order_of_every_plan_of_up_to_4_rooms_with_all_of_four_names() {
    let mut tally = Tally::new("plans of up to 4 rooms with all of four names");
    each_naming(|rooms, names| {
        let given = GivenRooms::new(named(rooms, names));
        let _ = tally.rooms_in(&given, given.needed());
    });
    assert_eq!(tally.accepted(), NAMINGS_WITHOUT_REPEAT);
    let repeated = NAMINGS - NAMINGS_WITHOUT_REPEAT;
    tally.expect_refused([Refusal::NameTwice], [repeated]);
    tally.finish(NAMINGS);
}

/// Compares a list with every two places named alike and the others as they
/// are: it is refused with 20, whatever the slices.
fn compare_pairs(tally: &mut Tally, rooms: &[Room], name: u16) {
    let n = rooms.len();
    for last in 1..n {
        for first in 0..last {
            let mut rooms = rooms.to_vec();
            (rooms[first].name, rooms[last].name) = (name, name);
            let given = GivenRooms::known(rooms, Err(Refusal::NameTwice));
            // Which slice is too short, if any, goes round.
            let mut capacities = given.needed();
            if let Some(short) = capacities.get_mut((first + last) % 5) {
                *short -= 1;
            }
            let _ = tally.rooms_in(&given, capacities);
        }
    }
}

#[test]
fn one_name_on_any_two_rooms_with_all_others_unnamed() {
    let name = "one name on any two rooms, the others unnamed";
    let tally = Tally::of_rounds(name, 161, COUNTS, |tally, random, n| {
        let any = random.number(1, u16::MAX);
        let name = random.pick(&[1, 255, 256, 2047, 2048, any, u16::MAX]);
        compare_pairs(tally, &some_plan(n, random).rooms(), name);
    });
    let pairs = COUNTS.map(|n| n * (n - 1) / 2).iter().sum();
    tally.expect_refused([Refusal::NameTwice], [pairs]);
    tally.finish(pairs);
}

#[test]
fn one_name_on_any_two_rooms_with_all_others_named() {
    let name = "one name on any two rooms, the others named";
    let tally = Tally::of_rounds(name, 162, COUNTS, |tally, random, n| {
        let mut plan = some_plan(n, random);
        // One more, for the name that is put on two.
        let names = random_names(n + 1, random);
        plan.put_names(&names);
        compare_pairs(tally, &plan.rooms(), names[n]);
    });
    let pairs = COUNTS.map(|n| n * (n - 1) / 2).iter().sum();
    tally.expect_refused([Refusal::NameTwice], [pairs]);
    tally.finish(pairs);
}

#[test]
fn every_name_comes_back_and_is_refused_if_it_is_there_twice() {
    const NAMES: usize = 65_535;
    let mut tally = Tally::new("every name");
    let mut plan = some_plan(255, &mut Random::from_seed(163));
    for names in multiples(1, NAMES).chunks(255) {
        plan.put_names(names);
        let given = plan.given();
        tally.expect_numbers(&given, given.needed());
    }
    assert_eq!(tally.accepted(), NAMES / 255);

    let row = rooms(&[[1, 0, 2, 1], [0, 0, 1, 1]]);
    for name in 1..=u16::MAX {
        let twice = named(&row, &[name, name]);
        let given = GivenRooms::known(twice, Err(Refusal::NameTwice));
        let _ = tally.rooms_in(&given, given.needed());
    }
    tally.expect_refused([Refusal::NameTwice], [NAMES]);
    tally.finish(NAMES / 255 + NAMES);
}

#[test]
fn names_of_every_kind_in_lists_of_every_length() {
    let name = "names of every kind on 1 to 255 rooms";
    let mut lists = 0;
    let tally = Tally::of_rounds(name, 164, 1..=255, |tally, random, n| {
        let mut plan = some_plan(n, random);
        for mut names in [
            vec![0; n],
            multiples(1, n),
            multiples(256, n),
            multiples(1024, n),
            last_names(n),
            random_names(n, random),
        ] {
            // In the order in which they were made, and in another one with
            // unnamed rooms between.
            plan.put_names(&names);
            tally.rooms(&plan.given());
            names[..n / 2].fill(0);
            random.shuffle(&mut names);
            plan.put_names(&names);
            tally.rooms(&plan.given());
            lists += 2;
        }
    });
    assert_eq!(lists, 255 * 6 * 2);
    tally.finish_in_threes(lists);
}

#[test]
fn lists_that_differ_in_names_alone_differ_in_names_alone() {
    const PLANS: usize = 2000;
    let mut differ = 0;
    repeat(165, 0..PLANS, |random, _| {
        let n = random.between(1, 255);
        let list = some_plan(n, random).rooms();
        let [one, other] = [(); 2].map(|()| some_names(n, random));
        let [mut of_one, of_other] = [&one, &other].map(|names| {
            let rooms = of_library::rooms(&named(&list, names));
            library_numbering(&rooms).expect("no name is there twice")
        });
        differ += usize::from(of_one.names != of_other.names);
        assert_eq!(one == other, of_one.names == of_other.names, "{list:?}");
        of_one.names.clone_from(&of_other.names);
        assert_eq!(of_one, of_other, "{list:?}");
    });
    report(format_args!(
        "{PLANS} plans named twice, {differ} differently"
    ));
    assert!(differ > PLANS / 2);
}
