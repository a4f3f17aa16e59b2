//! Names: which lists they make refused, and where they are returned.

use crate::help::ask;
use reference::cases::names::{each_naming, named, NAMINGS, NAMINGS_WITHOUT_REPEAT};
use reference::cases::rooms;
use reference::{Refusal, Room};

#[test]
fn names_are_returned_by_position() {
    // A row of three, from left to right named 30, 10 and 20.
    let row = rooms(&[[1, 0, 2, 1], [2, 0, 3, 1], [0, 0, 1, 1]]);
    let answer = ask(&named(&row, &[10, 20, 30])).unwrap();
    assert_eq!(answer.positions, [2, 3, 1]);
    assert_eq!(answer.names, [30, 10, 20]);
    // The same with unnamed rooms, and with the last name there is.
    let answer = ask(&named(&row, &[0, 65_535, 0])).unwrap();
    assert_eq!(answer.names, [0, 0, 65_535]);
}

#[test]
fn one_name_on_two_rooms_is_20_unless_it_is_0() {
    let row: Vec<[u16; 4]> = (0..5).map(|x| [x, 0, x + 1, 1]).collect();
    let cause = |names: [u16; 5]| ask(&named(&rooms(&row), &names)).err();
    for accepted in [
        [0; 5],
        [0, 3, 0, 1, 0],
        [1, 2, 3, 4, 5],
        [65_535, 0, 0, 0, 1],
    ] {
        assert_eq!(cause(accepted), None, "{accepted:?}");
    }
    for refused in [
        [7; 5],
        [1, 0, 0, 0, 1],
        [0, 3, 0, 3, 0],
        [65_535, 1, 2, 3, 65_535],
    ] {
        assert_eq!(cause(refused), Some(Refusal::NameTwice), "{refused:?}");
    }
}

/// Whether some name but 0 is in the list again.
fn repeats(names: &[u16]) -> bool {
    let mut sorted: Vec<u16> = names.to_vec();
    sorted.sort_unstable();
    sorted
        .windows(2)
        .any(|pair| pair[0] == pair[1] && pair[0] > 0)
}

/// Holds a plan with these names to the same plan without: the same record,
/// labels and positions, and each room's name at its position; or 20.
fn check(unnamed: &[Room], names: &[u16]) -> bool {
    let answer = ask(&named(unnamed, names));
    if repeats(names) {
        assert_eq!(answer, Err(Refusal::NameTwice), "{names:?}");
        return false;
    }
    let (mut answer, expected) = (answer.unwrap(), ask(unnamed).unwrap());
    for (&position, name) in answer.positions.iter().zip(names) {
        assert_eq!(answer.names[usize::from(position) - 1], *name, "{names:?}");
    }
    answer.names.fill(0);
    assert_eq!(answer, expected, "{unnamed:?} named {names:?}");
    true
}

#[test]
fn every_order_of_every_drawing_of_up_to_4_labels_with_all_of_four_names() {
    let (mut lists, mut accepted) = (0, 0);
    each_naming(|rooms, names| {
        accepted += usize::from(check(rooms, names));
        lists += 1;
    });
    assert_eq!(lists, NAMINGS);
    assert_eq!(accepted, NAMINGS_WITHOUT_REPEAT);
}
