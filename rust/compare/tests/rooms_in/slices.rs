//! Lists and output slices of every length that matters. That nothing around
//! the slices changes, and nothing in them on a refusal, is part of every
//! comparison.

use compare::{Floorplan, GivenRooms, Tally};
use reference::cases::names::named;
use reference::cases::walk::random_list;
use reference::cases::{every_list, rooms, worked, Random};
use reference::Refusal;

/// A moved drawing of `n` labels with names.
fn some_given(n: usize, random: &mut Random) -> GivenRooms {
    let mut plan = Floorplan::drawn(&random_list(n, random).labels);
    plan.stretch(random);
    plan.name_and_shuffle(random);
    plan.given()
}

#[test]
fn four_slices_of_all_lengths_near_the_needed_ones() {
    let name = "four slices shorter or longer";
    let tally = Tally::of_rounds(name, 131, 1..=255, |tally, random, n| {
        let given = some_given(n, random);
        let needed = given.needed();
        for choice in every_list(2, 4) {
            let capacities =
                [0, 1, 2, 3].map(|which| needed[which] - 1 + usize::from(choice[which]));
            tally.expect_numbers(&given, capacities);
        }
    });
    // Of the three lengths two are long enough.
    assert_eq!(tally.accepted(), 255 * 16);
    tally.finish(255 * 81);
}

#[test]
fn one_slice_of_every_length_from_0_to_260() {
    let name = "one slice of 0 to 260 entries";
    let counts = [1, 2, 7, 40, 254, 255];
    let tally = Tally::of_rounds(name, 132, counts, |tally, random, n| {
        let given = some_given(n, random);
        for which in 0..4 {
            for length in 0..=260 {
                let mut capacities = given.needed();
                capacities[which] = length;
                tally.expect_numbers(&given, capacities);
            }
        }
    });
    tally.finish(6 * 4 * 261);
}

#[test]
fn refused_lists_leave_slices_of_every_length_from_0_to_260() {
    let columns = (0..254).map(|x| [x, 0, x + 1, 9]);
    let columns_and = |last: [u16; 4]| -> Vec<[u16; 4]> { columns.clone().chain([last]).collect() };
    let alike = vec![7; 255];
    let long = [
        (columns_and([254, 9, 255, 9]), Refusal::EmptyRoom),
        (columns_and([253, 0, 255, 9]), Refusal::SharedSquare),
        (columns_and([254, 0, 255, 8]), Refusal::OpenSquare),
        (columns_and([254, 0, 255, 9]), Refusal::NameTwice),
    ]
    .map(|(corners, refusal)| (named(&rooms(&corners), &alike), refusal));
    let refused: Vec<(GivenRooms, Refusal)> = worked::refused_rooms()
        .into_iter()
        .chain(long)
        .map(|(rooms, refusal)| (GivenRooms::new(rooms), refusal))
        .collect();
    let name = "refused, with slices of 0 to 260 entries";
    Tally::refused_at_every_length(name, &refused, 260, |tally, given, length| {
        tally.rooms_in(given, [length; 4])
    });
}

#[test]
fn empty_lists_are_1() {
    let empty = [(GivenRooms::new([]), Refusal::ListLength)];
    let name = "empty lists of rooms";
    Tally::refused_at_every_length(name, &empty, 260, |tally, given, length| {
        tally.rooms_in(given, [length; 4])
    });
    // Also where the slices are no part of anything.
    let answer = nenturxo::rooms_in(&[], &mut [], &mut [], &mut [], &mut []);
    assert_eq!(answer, Err(nenturxo::Refusal::LIST_LENGTH));
}

#[test]
fn lists_of_over_255_rooms_are_1_whatever_they_hold() {
    let mut tally = Tally::new("lists of over 255 rooms");
    // Among these are 256 and 65536 more than a length that would be accepted.
    let lengths = [
        256, 257, 258, 261, 300, 511, 512, 517, 1000, 65_535, 65_536, 65_537, 65_541,
    ];
    for length in lengths {
        let row = (0..u16::MAX).map(|x| [x, 0, x + 1, 1]);
        let row: Vec<[u16; 4]> = row.cycle().take(length).collect();
        let copies = vec![[3, 4, 5, 6]; length];
        let empty = vec![[9, 9, 9, 9]; length];
        for corners in [row, copies, empty] {
            let given = GivenRooms::new(named(&rooms(&corners), &vec![7; length]));
            for capacities in [[0; 4], [97, 255, 255, 255], [100, 300, 301, 302]] {
                let answer = tally.rooms_in(&given, capacities);
                assert_eq!(answer, Err(Refusal::ListLength), "{length} rooms");
            }
        }
    }
    tally.finish(lengths.len() * 3 * 3);
}

#[test]
fn lists_of_254_and_255_rooms_are_not_1() {
    let name = "lists of 254 and 255 rooms";
    let tally = Tally::of_rounds(name, 133, [254, 255], |tally, random, n| {
        tally.rooms(&some_given(n, random));
        for (room, refusal) in [
            ([9, 9, 9, 9], Refusal::EmptyRoom),
            ([3, 4, 5, 6], Refusal::SharedSquare),
        ] {
            let list = rooms(&vec![room; n]);
            tally.rooms(&GivenRooms::known(list, Err(refusal)));
        }
    });
    assert_eq!(tally.accepted(), 2 * 2);
    tally.finish(2 * 3 * 3);
}
