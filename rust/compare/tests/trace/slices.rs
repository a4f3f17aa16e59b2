//! Slices of every length that matters. That nothing around the slices
//! changes, and nothing in them on a refusal, is part of every comparison.

use crate::help::{some_trace, traced};
use compare::{report, GivenTrace, Tally};
use reference::cases::trace::{Draft, Fault, Habits};
use reference::cases::Random;
use reference::Refusal;

/// Stops unless a trace is accepted where there is an entry for every move, and
/// else refused with 15.
fn expect_in(tally: &mut Tally, given: &GivenTrace, draft: &Draft, capacity: usize) {
    let expected = match draft.entries.len() <= capacity {
        true => Ok(draft.answer()),
        false => Err(Refusal::SliceShort.into()),
    };
    assert_eq!(tally.trace(given, capacity), expected, "{capacity}");
}

#[test]
fn slices_of_every_length_near_the_needed_one() {
    let name = "slices one entry shorter or longer";
    let tally = Tally::of_rounds(name, 741, 2..=400, |tally, random, length| {
        let draft = some_trace(length, random);
        let (given, moves) = (GivenTrace::known(&draft), draft.entries.len());
        let near = [
            moves.saturating_sub(2),
            moves - 1,
            moves,
            moves + 1,
            moves + 2,
        ];
        for capacity in [0].into_iter().chain(near).chain([length, 2 * length]) {
            expect_in(tally, &given, &draft, capacity);
        }
    });
    tally.expect_often(399 * 2, &[Refusal::SliceShort]);
    tally.finish(399 * 8);
}

#[test]
fn slices_of_every_length_from_0_to_260() {
    let name = "slices of 0 to 260 entries";
    let lengths = [0, 1, 8, 9, 40, 124, 125, 200, 256, 257];
    let tally = Tally::of_rounds(name, 742, lengths, |tally, random, length| {
        let draft = some_trace(length, random);
        let given = GivenTrace::known(&draft);
        for capacity in 0..=260 {
            expect_in(tally, &given, &draft, capacity);
        }
    });
    tally.finish(lengths.len() * 261);
}

/// As many entries as there can be moves, one fewer and some more.
#[test]
fn slices_for_65_535_moves() {
    let mut tally = Tally::new("slices for 65,535 moves");
    let claims = Draft::random(65_535, Habits::new(0, 0, 1), &mut Random::from_seed(743));
    let given = GivenTrace::known(&claims);
    for capacity in [
        0, 1, 255, 256, 32_767, 65_533, 65_534, 65_535, 65_536, 70_000,
    ] {
        expect_in(&mut tally, &given, &claims, capacity);
    }
    assert_eq!(tally.accepted(), 3);
    tally.finish(10);
}

#[test]
fn refused_traces_leave_slices_of_every_length() {
    let name = "refused, with slices of 0 to 80 entries";
    let tally = Tally::of_rounds(name, 744, Fault::ALL, |tally, random, fault| {
        let faulty = some_trace(70, random).with_fault(fault, random);
        let given = GivenTrace::new(&faulty.bytes[..]);
        for capacity in 0..=80 {
            let answer = tally.trace(&given, capacity);
            assert_eq!(answer, Err(faulty.refused), "{given} into {capacity}");
        }
    });
    tally.finish(7 * 81);
}

/// What the slice held before does not count: the entries stand at the front,
/// and the others stay.
#[test]
fn the_rest_of_a_slice_stays() {
    let mut random = Random::from_seed(745);
    for _ in 0..200 {
        let length = random.between(0, 300);
        let draft = some_trace(length, &mut random);
        let held: Vec<u16> = (0..length + 9).map(|_| random.number(0, 65_535)).collect();
        let mut states = held.clone();
        let answer = nenturxo::trace(&draft.bytes, &mut states).expect("an accepted trace");
        let (front, rest) = states.split_at(answer.moves);
        assert_eq!(front, draft.entries);
        assert_eq!(rest, &held[answer.moves..]);
        // And all of them if it is refused.
        states.clone_from(&held);
        let short = draft.entries.len().saturating_sub(1);
        let refused = nenturxo::trace(&draft.bytes, &mut states[..short]);
        assert_eq!(refused.is_err(), short < draft.entries.len());
        assert_eq!(states, held);
    }
    report("400 calls with other entries before");
}

/// A trace at every address, and entries at every second one.
#[test]
fn slices_at_every_address() {
    let mut random = Random::from_seed(746);
    let mut calls = 0;
    for length in [1, 7, 8, 9, 31, 200, 509] {
        let draft = some_trace(length, &mut random);
        for start in 0..16 {
            let bytes = [&vec![0xee; start][..], &draft.bytes, &[0xee; 9]].concat();
            let trace = &bytes[start..start + length];
            for first in 0..8 {
                let moves = draft.entries.len();
                let mut entries = vec![0xeeee; first + moves + 9];
                let states = &mut entries[first..first + moves];
                let answer = nenturxo::trace(trace, states).expect("an accepted trace");
                assert_eq!(answer.moves, moves);
                assert_eq!(entries[first..first + moves], draft.entries);
                let around = entries[..first].iter().chain(&entries[first + moves..]);
                assert!(around.into_iter().all(|&entry| entry == 0xeeee));
                calls += 1;
            }
        }
    }
    report(format_args!("{calls} calls with slices at every address"));
}

#[test]
fn slices_that_are_no_part_of_anything() {
    let refusals = [
        (&[3][..], nenturxo::Refusal::SLICE_SHORT),
        (&[1, 2], nenturxo::Refusal::SLICE_SHORT),
        (&[2], nenturxo::Refusal::ONLY_ROOM),
        (&[1], nenturxo::Refusal::BAD_MOVE),
        (&[1, 4], nenturxo::Refusal::RUN_MISSING),
        (&[1, 0, 3], nenturxo::Refusal::RUNS_LEFT),
    ];
    for (trace, refusal) in refusals {
        let refused = nenturxo::trace(trace, &mut []).unwrap_err();
        assert_eq!(refused.error, refusal, "{trace:?}");
    }
    let none = nenturxo::trace(&[], &mut []).expect("an empty trace");
    assert_eq!((none.moves, none.rooms, none.runs), (0, 1, 1));
    let mut tally = Tally::new("empty traces");
    for capacity in [0, 1, 7] {
        let answer = tally.trace(&GivenTrace::new([]), capacity);
        assert_eq!(answer, Ok(traced(0, 1, 1)));
    }
    tally.finish(3);
}
