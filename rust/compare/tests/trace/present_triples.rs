//! The end state is the one that the triples still present give from the start:
//! the library is asked for them, without all that was taken away.

use crate::help::some_trace;
use compare::{report, GivenTrace, Tally};
use reference::cases::Random;

#[test]
fn rooms_and_runs_after_each_move() {
    let mut random = Random::from_seed(781);
    let mut moves = 0;
    for _ in 0..60 {
        let length = random.between(50, 600);
        let draft = some_trace(length, &mut random);
        let mut states = vec![0; draft.entries.len()];
        nenturxo::trace(&draft.bytes, &mut states).expect("an accepted trace");
        let mut present = Vec::new();
        for (&place, &entry) in draft.places.iter().zip(&states) {
            match draft.bytes[place] {
                1 => present.extend([1, draft.bytes[place + 1]]),
                2 => present.truncate(present.len() - 2),
                _ => {}
            }
            let answer = nenturxo::trace(&present, &mut [0; 254]).expect("the triples present");
            assert_eq!([answer.rooms, answer.runs], entry.to_be_bytes());
            assert_eq!(answer.moves, present.len() / 2);
            moves += 1;
        }
    }
    report(format_args!(
        "{moves} moves, each with the triples still present"
    ));
}

/// What was taken away leaves no mark: rooms that are added and taken away again
/// between two moves change nothing of what follows.
#[test]
fn moves_that_are_taken_back() {
    const TRACES: usize = 300;
    let name = "traces with moves that are taken back";
    let tally = Tally::of_rounds(name, 782, 0..TRACES, |tally, random, _| {
        let draft = some_trace(60, random);
        let place = random.pick(&draft.places);
        // Two rooms with triples that need no run, and both taken away.
        let [first, second] = [(); 2].map(|()| random.pick(&[0, 1, 2, 5]));
        let back_and_forth = [1, first, 1, second, 2, 2];
        let (before, after) = draft.bytes.split_at(place);
        let longer = [before, &back_and_forth, after].concat();
        let answer = tally.trace(&GivenTrace::new(longer), 100);
        let expected = draft.answer();
        let answer = answer.expect("an accepted trace");
        assert_eq!(answer.moves, expected.moves + 4);
        assert_eq!((answer.rooms, answer.runs), (expected.rooms, expected.runs));
    });
    assert_eq!(tally.accepted(), TRACES);
    tally.finish(TRACES);
}
