//! Answers that are printed: the sheet's worked plans, and the permutations
//! and the code with the figures of 000 and 001, read the other way.

use compare::{GivenRecord, Tally};
use reference::cases::walk::{halves, Walked};
use reference::cases::{rooms, worked};
use reference::{record_of, Refusal, Room};

/// The drawing of a record, once the library agrees with it.
fn drawn(tally: &mut Tally, record: &[u8]) -> Vec<Room> {
    let given = GivenRecord::new(record);
    let _ = tally.record_in(&given, [255; 2]);
    given.answer.expect("the record is accepted").rooms
}

#[test]
fn worked_records_of_the_sheet() {
    let mut tally = Tally::new("worked records of the sheet");
    for (labels, record) in worked::LISTS.into_iter().chain([worked::CONVERTED]) {
        tally.expect_labels(record, labels);
    }
    for (record, refusal) in worked::REFUSED_RECORDS {
        tally.expect_refused_record(record, refusal);
    }
    tally.finish(3 * 9 + 3 * 6);
}

#[test]
fn worked_drawing_of_the_sheet() {
    let mut tally = Tally::new("worked drawing of the sheet");
    let drawn = drawn(&mut tally, &worked::LISTED);
    assert_eq!(drawn, rooms(&worked::DRAWING));
    tally.finish(1);
}

#[test]
fn worked_drawing_of_001() {
    let mut tally = Tally::new("worked drawing of 001");
    // The labels 2 7 3 1 5 6 4 stand at positions 1 to 7.
    let rooms = drawn(&mut tally, &[0x07, 0x0e, 0x8d, 0xc0]);
    let of_label = |label: usize| rooms[[4, 1, 3, 7, 5, 6, 2][label - 1] - 1];

    // Figure 9: the block 5 is extended downwards, at the expense of 3, and
    // the block 4 leftwards, at the expense of 5.
    assert_eq!(of_label(5).left, of_label(3).right);
    assert!(of_label(5).bottom <= of_label(3).bottom);
    assert_eq!(of_label(4).bottom, of_label(5).top);
    assert!(of_label(4).left <= of_label(5).left);

    // Definition 9: for the label 3 the nearest larger ones are 7 and 5, the
    // nearest smaller ones 2 and 1. They stand at 2 and 5, and at 1 and 4.
    assert_eq!(of_label(3), Room::from([1, 2, 5 - 1, 4 - 1]));
    tally.finish(1);
}

#[test]
fn code_printed_with_figure_7_of_001() {
    let mut tally = Tally::new("code printed with figure 7 of 001, read");
    let record = record_of(7, &worked::code_of_figure_7());
    tally.expect_labels(&record, &[2, 7, 3, 1, 5, 6, 4]);
    tally.finish(3);
}

#[test]
fn rising_and_falling_plans_of_every_count() {
    let mut tally = Tally::new("rising and falling plans");
    for n in 1..=255u8 {
        let outline = u16::from(n);
        // Rising: rooms from left to right, each as high as the outline.
        let columns = (1..=outline).map(|i| Room::from([i - 1, 0, i, outline]));
        expect_drawing(&mut tally, &Walked::rising(n), columns);
        // Falling: rooms from the bottom up, each as wide as the outline.
        let rows = (1..=outline).map(|i| Room::from([0, i - 1, outline, i]));
        expect_drawing(&mut tally, &Walked::falling(n), rows);
    }
    tally.finish(2 * 255 * 4);
}

/// Compares a record whose labels and rooms are known.
fn expect_drawing(tally: &mut Tally, walked: &Walked, rooms: impl Iterator<Item = Room>) {
    let record = walked.record();
    tally.expect_labels(&record, &walked.labels);
    assert!(rooms.eq(drawn(tally, &record)), "{:?}", walked.labels);
}

#[test]
fn plans_with_as_many_runs_as_there_can_be() {
    let mut tally = Tally::new("plans with 128 runs");
    for walked in Walked::with_128_runs() {
        tally.expect_labels(&walked.record(), &walked.labels);
    }
    // The joins on the wrong side, and new runs up to the end.
    for (new_run, join, refusal) in [
        (0b000, 0b110, Refusal::RunMissing),
        (0b001, 0b111, Refusal::RunMissing),
        (0b000, 0b000, Refusal::RunsLeft),
        (0b001, 0b001, Refusal::RunsLeft),
        (0b000, 0b001, Refusal::RunsLeft),
        (0b001, 0b000, Refusal::RunsLeft),
        (0b000, 0b011, Refusal::RunsLeft),
        (0b001, 0b100, Refusal::RunsLeft),
    ] {
        tally.expect_refused_record(&record_of(255, &halves(new_run, join)), refusal);
    }
    tally.finish(2 * 3 + 8 * 3);
}
