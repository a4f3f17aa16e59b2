//! The sheet's worked plans, and one list for each cause.

use crate::help::{ask, label_list};
use reference::cases::{rooms, worked};
use reference::{drawing, Numbering, Refusal};

/// Compares what a list without names is answered with: record, labels and
/// positions.
fn expect(corners: &[[u16; 4]], [record, labels, positions]: [&[u8]; 3]) {
    let expected = Numbering {
        record: record.to_vec(),
        labels: labels.to_vec(),
        positions: positions.to_vec(),
        names: vec![0; corners.len()],
    };
    assert_eq!(ask(&rooms(corners)), Ok(expected), "{corners:?}");
}

#[test]
fn two_rooms_in_either_order() {
    let [unit, right, upper] = [[0, 0, 1, 1], [1, 0, 2, 1], [0, 1, 1, 2]];
    // side by side
    expect(&[unit, right], [&[0x02, 0x40], &[1, 2], &[1, 2]]);
    expect(&[right, unit], [&[0x02, 0x40], &[2, 1], &[2, 1]]);
    // one above the other
    expect(&[unit, upper], [&[0x02, 0xA0], &[2, 1], &[1, 2]]);
    expect(&[upper, unit], [&[0x02, 0xA0], &[1, 2], &[2, 1]]);
}

#[test]
fn a_gap_is_4_four_unit_squares_are_5_and_a_name_twice_is_20() {
    for (list, refusal) in worked::refused_rooms() {
        assert_eq!(ask(&list), Err(refusal), "{list:?}");
    }
}

#[test]
fn the_smallest_and_the_largest_room() {
    for (first, last) in [(0, 1), (65_534, 65_535), (0, 65_535)] {
        expect(&[[first, first, last, last]], [&[0x01], &[1], &[1]]);
    }
}

#[test]
fn a_flat_room_is_2() {
    for corners in [
        [0, 0, 0, 1],
        [0, 0, 1, 0],
        [2, 0, 1, 1],
        [0, 2, 1, 1],
        [0, 0, 0, 0],
        [65_535, 65_535, 0, 0],
    ] {
        assert_eq!(ask(&rooms(&[corners])), Err(Refusal::EmptyRoom));
        // A flat room in the seam between two others is one too.
        let list = rooms(&[[0, 0, 1, 1], corners, [1, 0, 2, 1]]);
        assert_eq!(ask(&list), Err(Refusal::EmptyRoom));
    }
}

#[test]
fn an_overlap_is_3() {
    for list in [
        [[0, 0, 2, 1], [1, 0, 3, 1]],
        [[0, 0, 1, 1], [0, 0, 1, 1]],
        [[0, 0, 9, 9], [3, 3, 4, 4]],
        // a cross: no corner of one is in the other
        [[0, 4, 9, 5], [4, 0, 5, 9]],
    ] {
        assert_eq!(ask(&rooms(&list)), Err(Refusal::SharedSquare));
    }
}

#[test]
fn no_rooms_and_256_rooms_are_1() {
    assert_eq!(ask(&[]), Err(Refusal::ListLength));
    let mut row: Vec<[u16; 4]> = (0..256).map(|x| [x, 0, x + 1, 1]).collect();
    assert_eq!(ask(&rooms(&row)), Err(Refusal::ListLength));
    // 1 comes before 2
    row[7] = [7, 0, 7, 1];
    assert_eq!(ask(&rooms(&row)), Err(Refusal::ListLength));
}

#[test]
fn the_causes_come_in_their_order() {
    let four = [[0, 0, 1, 1], [1, 0, 2, 1], [0, 1, 1, 2], [1, 1, 2, 2]];
    let with = |more: &[[u16; 4]]| ask(&rooms(&[&four, more].concat())).unwrap_err().number();
    assert_eq!(with(&[]), 5);
    assert_eq!(with(&[[2, 0, 3, 1]]), 4);
    assert_eq!(with(&[[2, 0, 3, 1], [0, 0, 1, 1]]), 3);
    assert_eq!(with(&[[2, 0, 3, 1], [0, 0, 1, 1], [0, 0, 0, 1]]), 2);
}

#[test]
fn a_pinwheel_of_five() {
    // The rooms, each with its label and its position.
    let pinwheel = [
        ([200, 10, 300, 50], 5, 4),
        ([0, 20, 90, 60], 1, 2),
        ([90, 20, 200, 50], 3, 3),
        ([90, 50, 300, 60], 2, 5),
        ([0, 10, 200, 20], 4, 1),
    ];
    let corners = pinwheel.map(|(corners, _, _)| corners);
    let labels = pinwheel.map(|(_, label, _)| label);
    let positions = pinwheel.map(|(_, _, position)| position);
    expect(&corners, [&worked::LISTED, &labels, &positions]);
    let answer = ask(&rooms(&corners)).unwrap();
    assert_eq!(label_list(&answer), [4, 1, 3, 5, 2]);
}

#[test]
fn the_rooms_of_the_worked_label_lists() {
    for (labels, record) in worked::LISTS {
        let answer = ask(&drawing(labels)).unwrap();
        assert_eq!(answer.record, record);
        assert_eq!(answer.labels, labels);
    }
}

#[test]
fn a_far_room_with_smaller_x_may_be_below_instead() {
    let corners = worked::FAR_ROOM.map(|(corners, _)| corners);
    let answer = ask(&rooms(&corners)).unwrap();
    let labels = worked::FAR_ROOM.map(|(_, label)| label);
    assert_eq!(label_list(&answer), labels);
    assert_eq!(answer.positions, [1, 2, 3, 4, 5]);
}
