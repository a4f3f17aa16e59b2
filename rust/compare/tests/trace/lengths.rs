//! Traces of 65,535 bytes and of 65,536, which are refused with 21 whatever they
//! hold.

use crate::help::{refused, traced};
use compare::{GivenTrace, Tally};
use reference::{Refusal, TRACE_LENGTH};

/// A trace of just so many bytes: claims, but for the first one and the last one.
fn claims(first: u8, length: usize, last: u8) -> GivenTrace {
    let mut bytes = vec![3; length];
    bytes[0] = first;
    bytes[length - 1] = last;
    GivenTrace::new(bytes)
}

#[test]
fn the_longest_traces() {
    let mut tally = Tally::new("traces of 65,535 bytes and a little less");
    for length in TRACE_LENGTH - 9..=TRACE_LENGTH {
        tally.expect_traced(&claims(3, length, 3), traced(length, 1, 1));
        // Rooms that are added and taken away, and one with its body at the end.
        let mut bytes = [1, 2, 2].repeat((length - 2) / 3);
        bytes.resize(length - 2, 3);
        bytes.extend([1, 0]);
        let given = GivenTrace::new(bytes);
        let answer = tally.trace(&given, length).expect("an accepted trace");
        assert_eq!((answer.rooms, answer.runs), (2, 2), "{length}");
    }
    tally.finish(10 * 4);
}

#[test]
fn faults_at_the_end_of_the_longest_trace() {
    let mut tally = Tally::new("faults at the end of 65,535 bytes");
    for (last, refusal) in [
        (0, Refusal::BadMove),
        (1, Refusal::BadMove),
        (2, Refusal::OnlyRoom),
        (4, Refusal::BadMove),
        (255, Refusal::BadMove),
    ] {
        let given = claims(3, TRACE_LENGTH, last);
        tally.expect_refused_trace(&given, refused(refusal, TRACE_LENGTH, 1, 1));
    }
    tally.finish(5 * 3);
}

/// Before all moves and before the slice, which is too short in two cases of
/// three.
#[test]
fn one_byte_more_is_too_long() {
    let mut tally = Tally::new("traces of more than 65,535 bytes");
    let long = Refusal::BookLength.into();
    for length in [1, 2, 3, 7, 8, 9, 255, 256].map(|more| TRACE_LENGTH + more) {
        // Claims; an unknown kind; a triple above 7 or one that needs a run; the
        // only room; a body that is missing.
        for (first, last) in [(3, 3), (0, 3), (1, 3), (2, 3), (9, 3), (3, 1), (3, 0)] {
            tally.expect_refused_trace(&claims(first, length, last), long);
        }
    }
    for byte in [0, 1, 2, 4, 255] {
        let given = GivenTrace::new(vec![byte; TRACE_LENGTH + 1]);
        tally.expect_refused_trace(&given, long);
    }
    tally.expect_refused([Refusal::BookLength], [3 * (8 * 7 + 5)]);
    tally.finish(3 * (8 * 7 + 5));
}

/// Not only its two low bytes.
#[test]
fn lengths_count_whole() {
    let mut tally = Tally::new("traces of about twice 65,536 bytes");
    for length in [2 * 65_536 - 1, 2 * 65_536, 2 * 65_536 + 1, 3 * 65_536 + 5] {
        let given = claims(3, length, 3);
        tally.expect_refused_trace(&given, Refusal::BookLength.into());
    }
    tally.finish(4 * 3);
}
