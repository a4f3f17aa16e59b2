//! Two causes at once: each refusal comes before those that are named after it.
//! The order is 21 before all moves; then, of the first refused move, 28, 1 or
//! 29, and 12 or 13; and 15 after the last move.

use crate::help::refused;
use compare::{GivenTrace, Tally};
use reference::{Refusal, TraceRefusal, TRACE_LENGTH};

/// The trace that comes to 255 rooms and one run.
fn full() -> Vec<u8> {
    [1, 2].repeat(254)
}

/// Compares traces with the answers that they must get, whatever the slice.
fn expect_all(name: &'static str, cases: &[(Vec<u8>, TraceRefusal)]) {
    let mut tally = Tally::new(name);
    for (bytes, expected) in cases {
        tally.expect_refused_trace(&GivenTrace::new(&bytes[..]), *expected);
    }
    tally.finish(3 * cases.len());
}

/// Any move that is refused, and a slice that is too short.
#[test]
fn a_trace_that_is_too_long_comes_first() {
    let long = TraceRefusal::from(Refusal::BookLength);
    let first = [&[0][..], &[9], &[1, 8], &[2], &[1, 3], &[1, 0, 3], &[3]];
    let mut cases = Vec::new();
    for moves in first {
        let mut bytes = moves.to_vec();
        bytes.resize(TRACE_LENGTH + 1, 3);
        cases.push((bytes, long));
    }
    // 255 rooms, one more, and too many bytes.
    let mut bytes = [full(), vec![1, 2]].concat();
    bytes.resize(TRACE_LENGTH + 1, 3);
    cases.push((bytes, long));
    // A body that is missing.
    let mut bytes = vec![3; TRACE_LENGTH + 1];
    bytes[TRACE_LENGTH] = 1;
    cases.push((bytes, long));
    expect_all("21 and another cause", &cases);
}

#[test]
fn the_form_of_a_move_comes_before_its_room() {
    let bad = refused(Refusal::BadMove, 255, 255, 1);
    let one_more = [&[1, 8][..], &[1, 255], &[1, 131], &[1], &[4], &[0], &[0, 2]];
    let cases: Vec<_> = one_more
        .map(|bytes| ([&full()[..], bytes].concat(), bad))
        .to_vec();
    expect_all("28 and 1", &cases);
    // A triple above 7 whose low bits need a run that is missing.
    let bad = refused(Refusal::BadMove, 1, 1, 1);
    let cases: Vec<_> = [11, 12, 14, 15]
        .map(|triple| (vec![1, triple], bad))
        .to_vec();
    expect_all("28 and 12", &cases);
}

#[test]
fn the_256th_room_comes_before_a_run_that_is_missing() {
    let room = refused(Refusal::ListLength, 255, 255, 1);
    let triples = [3, 4, 6, 7];
    let cases: Vec<_> = triples
        .map(|triple| ([full(), vec![1, triple]].concat(), room))
        .to_vec();
    expect_all("1 and 12", &cases);
    // With 255 runs all triples that need one on the other side.
    let cases = [(0, 4), (0, 6), (1, 3), (1, 7)].map(|(run, triple)| {
        let bytes = [[1, run].repeat(254), vec![1, triple]].concat();
        (bytes, refused(Refusal::ListLength, 255, 255, 255))
    });
    expect_all("1 and 12 with 255 runs", &cases);
}

/// Whatever number the later move would get.
#[test]
fn the_first_refused_move_comes_before_later_ones() {
    let faults = [
        (&[1, 0, 0][..], refused(Refusal::BadMove, 2, 2, 2)),
        (&[1, 0, 1, 9], refused(Refusal::BadMove, 2, 2, 2)),
        (&[1, 0, 2, 2], refused(Refusal::OnlyRoom, 3, 1, 1)),
        (&[1, 0, 1, 6], refused(Refusal::RunMissing, 2, 2, 2)),
        (&[1, 0, 3], refused(Refusal::RunsLeft, 2, 2, 2)),
    ];
    let later = [&[0][..], &[1, 8], &[2, 2, 2], &[1, 4], &[3], &[1]];
    let mut cases = Vec::new();
    for (bytes, expected) in faults {
        for more in later {
            cases.push(([bytes, more].concat(), expected));
        }
    }
    let room = refused(Refusal::ListLength, 255, 255, 1);
    cases.extend(later.map(|more| ([&full()[..], &[1, 2], more].concat(), room)));
    expect_all("two refused moves", &cases);
}

/// The slice is judged after the last move: a refused one comes before it, be it
/// the last of many that found no entry.
#[test]
fn a_refused_move_comes_before_the_slice() {
    let mut tally = Tally::new("a refused move and 15");
    let claims = [3; 30];
    let faults = [
        (&[0][..], Refusal::BadMove),
        (&[1], Refusal::BadMove),
        (&[2], Refusal::OnlyRoom),
        (&[1, 7], Refusal::RunMissing),
    ];
    for (bad, refusal) in faults {
        let given = GivenTrace::new([&claims[..], bad].concat());
        for capacity in 0..=32 {
            let answer = tally.trace(&given, capacity);
            assert_eq!(answer, Err(refused(refusal, 31, 1, 1)), "{capacity}");
        }
    }
    let given = GivenTrace::new([&claims[..], &[1, 1, 3]].concat());
    for capacity in 0..=33 {
        let answer = tally.trace(&given, capacity);
        assert_eq!(
            answer,
            Err(refused(Refusal::RunsLeft, 32, 2, 2)),
            "{capacity}"
        );
    }
    let given = GivenTrace::new([full(), vec![1, 2]].concat());
    for capacity in [0, 1, 253, 254, 255, 256] {
        let answer = tally.trace(&given, capacity);
        assert_eq!(answer, Err(refused(Refusal::ListLength, 255, 255, 1)));
    }
    // Without the fault it is the slice.
    let given = GivenTrace::new(claims);
    for capacity in 0..30 {
        let answer = tally.trace(&given, capacity);
        assert_eq!(answer, Err(Refusal::SliceShort.into()), "{capacity}");
    }
    tally.finish(4 * 33 + 34 + 6 + 30);
}
