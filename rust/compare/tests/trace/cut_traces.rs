//! Traces that are cut: before any of its moves an accepted trace is accepted and
//! has the same entries up to there, and a refused one before the refused move.

use crate::help::some_trace;
use compare::{GivenTrace, Tally};
use reference::cases::trace::{Draft, Fault};
use reference::cases::Random;
use reference::Refusal;

/// The trace of the first moves.
fn cut(draft: &Draft, moves: usize) -> &[u8] {
    let end = draft.places.get(moves).copied();
    &draft.bytes[..end.unwrap_or(draft.bytes.len())]
}

#[test]
fn accepted_traces_before_each_of_their_moves() {
    const TRACES: usize = 40;
    let name = "accepted traces that are cut";
    let mut cases = 0;
    let tally = Tally::of_rounds(name, 761, 0..TRACES, |tally, random, _| {
        let length = random.between(20, 300);
        let draft = some_trace(length, random);
        let mut whole = vec![0; draft.entries.len()];
        nenturxo::trace(&draft.bytes, &mut whole).expect("an accepted trace");
        for moves in 0..=draft.entries.len() {
            let bytes = cut(&draft, moves);
            let mut entries = vec![0; moves];
            let answer = nenturxo::trace(bytes, &mut entries).expect("an accepted trace");
            assert_eq!(answer.moves, moves);
            assert_eq!(entries, whole[..moves]);
            assert!(tally.trace(&GivenTrace::new(bytes), moves).is_ok());
            cases += 1;
        }
    });
    assert_eq!(tally.accepted(), cases);
    tally.finish(cases);
}

/// Between kind and body the last move lacks its body.
#[test]
fn traces_without_their_last_body() {
    const TRACES: usize = 60;
    let name = "traces without their last body";
    let mut cases = 0;
    let tally = Tally::of_rounds(name, 762, 0..TRACES, |tally, random, _| {
        let draft = some_trace(100, random);
        for (moves, &place) in draft.places.iter().enumerate() {
            if draft.bytes[place] == 1 {
                let given = GivenTrace::new(&draft.bytes[..=place]);
                let answer = tally.trace(&given, 100).unwrap_err();
                assert_eq!(answer.refusal, Refusal::BadMove);
                assert_eq!(answer.at.map(|at| at.ordinal), Some(moves + 1));
                cases += 1;
            }
        }
    });
    tally.expect_refused([Refusal::BadMove], [cases]);
    tally.finish(cases);
}

#[test]
fn refused_traces_before_their_refused_move() {
    const TRACES: usize = 700;
    let name = "refused traces cut before the refused move";
    let tally = Tally::of_rounds(name, 763, 0..TRACES, |tally, random, round| {
        let length = random.between(0, 400);
        let fault = Fault::ALL[round % 7];
        let faulty = some_trace(length, random).with_fault(fault, random);
        let before = &faulty.before;
        // Where that is, the library says.
        let refused = nenturxo::trace(&faulty.bytes, &mut []).unwrap_err();
        let at = refused.at.expect("a refused move");
        assert_eq!(at.ordinal, before.places.len() + 1);
        let mut entries = vec![0; before.entries.len()];
        let answer = nenturxo::trace(&before.bytes, &mut entries).expect("an accepted trace");
        assert_eq!((answer.rooms, answer.runs), (at.rooms, at.runs));
        assert_eq!(answer.moves, at.ordinal - 1);
        assert_eq!(entries, before.entries);
        tally.expect_refused_trace(&GivenTrace::new(&faulty.bytes[..]), faulty.refused);
        tally.expect_traced(&GivenTrace::new(&before.bytes[..]), before.answer());
    });
    tally.finish(TRACES * 5);
}

/// Of long traces, those of any bytes too.
#[test]
fn any_bytes_up_to_their_refused_move() {
    const TRACES: usize = 3_000;
    let name = "any bytes up to their refused move";
    let some_bytes = |random: &mut Random| -> Vec<u8> {
        let choices: &[u8] =
            random.pick(&[&[1, 2, 3], &[1, 1, 1, 2, 3, 0, 5], &[1, 2, 3, 4, 5, 6, 7]]);
        let length = random.between(1, 60);
        (0..length).map(|_| random.pick(choices)).collect()
    };
    let tally = Tally::of_rounds(name, 764, 0..TRACES, |tally, random, _| {
        let bytes = some_bytes(random);
        let Err(bad) = tally.trace(&GivenTrace::new(&bytes[..]), 60) else {
            return;
        };
        // The longest part from the front that is accepted has all moves but the
        // refused one.
        let at = bad.at.expect("a refused move");
        let moves = (0..bytes.len()).rev().find_map(|end| {
            let answer = tally.trace(&GivenTrace::new(&bytes[..end]), 60);
            answer
                .ok()
                .map(|answer| (answer.moves, answer.rooms, answer.runs))
        });
        assert_eq!(
            moves,
            Some((at.ordinal - 1, at.rooms, at.runs)),
            "{bytes:02X?}"
        );
    });
    tally.finish(TRACES);
}
