//! Answers that are printed: the sheet's room plans, and the drawings of its
//! label lists.

use compare::{Floorplan, GivenRooms, Tally};
use reference::cases::walk::Walked;
use reference::cases::{rooms, worked};
use reference::{Numbering, Refusal};

/// Compares a list whose answer by the definitions must be this one.
fn expect(tally: &mut Tally, corners: &[[u16; 4]], answer: Result<Numbering, Refusal>) {
    let given = GivenRooms::new(rooms(corners));
    assert_eq!(given.answer, answer, "{given}");
    tally.rooms(&given);
}

/// The answer with this record, these labels and positions, and no name.
fn numbering(record: &[u8], labels: &[u8], positions: &[u8]) -> Result<Numbering, Refusal> {
    Ok(Numbering {
        record: record.to_vec(),
        labels: labels.to_vec(),
        positions: positions.to_vec(),
        names: vec![0; labels.len()],
    })
}

#[test]
fn worked_plans_of_the_sheet() {
    let mut tally = Tally::new("room plans of the sheet");
    let [unit, right, upper] = [[0, 0, 1, 1], [1, 0, 2, 1], [0, 1, 1, 2]];
    let row = &[0x02, 0x40];
    expect(&mut tally, &[unit, right], numbering(row, &[1, 2], &[1, 2]));
    expect(&mut tally, &[right, unit], numbering(row, &[2, 1], &[2, 1]));

    let pile = &[0x02, 0xa0];
    let answer = numbering(pile, &[2, 1], &[1, 2]);
    expect(&mut tally, &[unit, upper], answer);
    let answer = numbering(pile, &[1, 2], &[2, 1]);
    expect(&mut tally, &[upper, unit], answer);

    let squares = [unit, right, upper, [1, 1, 2, 2]];
    expect(&mut tally, &squares, Err(Refusal::FourRoomsMeet));
    let apart = [unit, [2, 0, 3, 1]];
    expect(&mut tally, &apart, Err(Refusal::OpenSquare));
    assert_eq!(tally.accepted(), 4 * 2);
    tally.finish(6 * 3);
}

#[test]
fn drawings_of_the_sheets_label_lists() {
    let mut tally = Tally::new("drawings of the sheet's label lists");
    for (labels, record) in worked::LISTS {
        let given = GivenRooms::new(Floorplan::drawn(labels).rooms());
        let positions: Vec<u8> = (1..).take(labels.len()).collect();
        assert_eq!(given.answer, numbering(record, labels, &positions));
        tally.rooms(&given);
    }
    tally.finish_in_threes(8);
}

#[test]
fn rows_and_piles_of_every_count() {
    let mut tally = Tally::new("rows and piles of 1 to 255 rooms");
    for n in 1..=255 {
        for walked in [Walked::rising(n), Walked::falling(n)] {
            tally.rooms(&Floorplan::drawn(&walked.labels).given());
        }
    }
    tally.finish_in_threes(2 * 255);
}

#[test]
fn a_far_room_with_smaller_x_may_be_below_instead() {
    let mut tally = Tally::new("a trap of the sheet");
    let given = GivenRooms::new(rooms(&worked::FAR_ROOM.map(|(corners, _)| corners)));
    let labels = given.answer.as_ref().map(|answer| &answer.labels[..]);
    assert_eq!(labels, Ok(&worked::FAR_ROOM.map(|(_, label)| label)[..]));
    tally.rooms(&given);
    tally.finish(3);
}
