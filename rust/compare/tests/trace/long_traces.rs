//! Random traces of up to 65,535 bytes.

use crate::help::{expect_known, some_trace, CASES};
use compare::Tally;
use reference::cases::trace::{Draft, Habits, ONE_RUN};
use reference::Refusal;
use reference::TRACE_LENGTH;

/// Stops unless all cases of so many traces were as they must be.
fn finish(tally: Tally, traces: usize) {
    tally.expect_refused([Refusal::SliceShort], [traces]);
    assert_eq!(tally.accepted(), (CASES - 1) * traces);
    tally.finish(CASES * traces);
}

#[test]
fn random_traces_of_every_length_up_to_600_bytes() {
    let name = "random traces of 1 to 600 bytes";
    let tally = Tally::of_rounds(name, 711, 1..=600, |tally, random, length| {
        for _ in 0..8 {
            expect_known(tally, &some_trace(length, random));
        }
    });
    finish(tally, 8 * 600);
}

#[test]
fn random_traces_of_some_thousand_bytes() {
    const TRACES: usize = 150;
    let name = "random traces of some thousand bytes";
    let tally = Tally::of_rounds(name, 712, 0..TRACES, |tally, random, _| {
        let length = random.between(600, 8_000);
        expect_known(tally, &some_trace(length, random));
    });
    finish(tally, TRACES);
}

/// Rooms go up and down between 1 and 255, with every run there can be.
#[test]
fn traces_of_65_535_bytes_with_many_take_aways() {
    let habits = [
        Habits::new(1, 1, 0),
        Habits::new(1, 1, 2).with(ONE_RUN),
        Habits::new(9, 8, 3),
        Habits::new(20, 1, 0),
        Habits::new(3, 2, 1).with(&[0, 1]),
    ];
    let name = "random traces of 65,535 bytes";
    let tally = Tally::of_rounds(name, 713, habits, |tally, random, habits| {
        expect_known(tally, &Draft::random(TRACE_LENGTH, habits, random));
    });
    finish(tally, 5);
}

#[test]
fn traces_of_65_535_bytes_that_go_up_and_down() {
    let name = "traces of 65,535 bytes that go up and down";
    let tally = Tally::of_rounds(name, 714, [254, 100, 7, 1], |tally, random, rooms| {
        expect_known(tally, &Draft::up_and_down(rooms, TRACE_LENGTH, random));
        expect_known(tally, &Draft::alternating(rooms, TRACE_LENGTH, random));
    });
    finish(tally, 2 * 4);
}

#[test]
fn traces_of_65_535_bytes_that_are_nearly_all_claims() {
    let name = "traces of 65,535 bytes that are nearly all claims";
    let tally = Tally::of_rounds(name, 715, [8, 50, 500], |tally, random, claims| {
        let habits = Habits::new(1, 1, claims).with(ONE_RUN);
        expect_known(tally, &Draft::random(TRACE_LENGTH, habits, random));
    });
    finish(tally, 3);
}
