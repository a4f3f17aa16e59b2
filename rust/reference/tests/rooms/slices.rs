//! Slices of the needed length and shorter ones.

use crate::help::ask;
use reference::cases::names::{multiples, named};
use reference::cases::{baxter_lists, rooms, unwritten, worked};
use reference::{drawing, rooms_in, Numbering, Refusal, Room};

/// Asks with slices of these lengths. A refusal must leave all as they were.
fn ask_with(rooms: &[Room], lengths: [usize; 4]) -> Result<Numbering, Refusal> {
    let mut slices = unwritten(lengths);
    let answer = rooms_in(rooms, slices.slices());
    if answer.is_err() {
        assert_eq!(slices, unwritten(lengths));
    }
    answer.map(|_| slices)
}

#[test]
fn the_needed_lengths_are_enough_and_one_less_is_15() {
    for labels in (1..=5).flat_map(baxter_lists) {
        let n = labels.len();
        let rooms = named(&drawing(&labels), &multiples(1, n));
        let expected = ask(&rooms).unwrap();
        let needed = [expected.record.len(), n, n, n];
        assert_eq!(ask_with(&rooms, needed), Ok(expected));

        // every choice of slices that are too short, by one or altogether
        for short in 1..16 {
            for less in [1, usize::MAX] {
                let mut lengths = needed;
                for (place, length) in lengths.iter_mut().enumerate() {
                    if (short >> place) & 1 == 1 {
                        *length = length.saturating_sub(less);
                    }
                }
                assert_eq!(ask_with(&rooms, lengths), Err(Refusal::SliceShort));
            }
        }
    }
}

#[test]
fn a_cause_in_the_rooms_comes_before_15() {
    for (list, cause) in worked::refused_rooms() {
        assert_eq!(ask_with(&list, [0; 4]), Err(cause));
        assert_eq!(ask_with(&list, [97, 255, 255, 255]), Err(cause));
    }
    // and without such a cause
    let row = rooms(&[[0, 0, 1, 1], [1, 0, 2, 1]]);
    assert_eq!(ask_with(&row, [0; 4]), Err(Refusal::SliceShort));
}
