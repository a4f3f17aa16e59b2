//! The call on traces that are small enough to be judged by eye.

use super::{trace, RefusedMove, TraceRefusal, Traced, TRACE_LENGTH};
use crate::cases::trace::{adds, Draft, Habits};
use crate::cases::walk::Walked;
use crate::cases::worked::{code_of_figure_7, LISTS, REFUSED_RECORDS};
use crate::cases::{every_code, Random};
use crate::{labels_of, triples_in, Refusal};

/// A trace with a room that is taken away and added again: 010 and 001, which is
/// taken away and added again, 110, and a claim.
const TRACE: [u8; 10] = [1, 2, 1, 1, 2, 1, 1, 1, 6, 3];

/// What the slices hold before a call. No entry is so large.
const UNTOUCHED: u16 = 0xffff;

/// What a trace answers and writes, if nothing is written where it is refused.
fn traced(bytes: &[u8], capacity: usize) -> Result<(Traced, Vec<u16>), TraceRefusal> {
    let mut states = vec![UNTOUCHED; capacity];
    let answer = trace(bytes, &mut states);
    let written = answer.map_or(0, |answer| answer.moves);
    let rest = &states[written..];
    assert!(rest.iter().all(|&entry| entry == UNTOUCHED), "{bytes:02x?}");
    states.truncate(written);
    Ok((answer?, states))
}

fn accepted(moves: usize, rooms: u8, runs: u8) -> Traced {
    Traced { moves, rooms, runs }
}

fn refused<A>(refusal: Refusal, [ordinal, rooms, runs]: [u8; 3]) -> Result<A, TraceRefusal> {
    let ordinal = ordinal.into();
    let at = RefusedMove {
        ordinal,
        rooms,
        runs,
    };
    Err(TraceRefusal::of_move(refusal, at))
}

#[test]
fn a_trace_with_a_room_taken_away() {
    let entries = vec![513, 770, 513, 770, 1025, 1025];
    for capacity in [6, 7, 100] {
        let answer = traced(&TRACE, capacity);
        assert_eq!(answer, Ok((accepted(6, 4, 1), entries.clone())));
    }
    for capacity in 0..6 {
        assert_eq!(traced(&TRACE, capacity), Err(Refusal::SliceShort.into()));
    }
}

#[test]
fn an_empty_trace_leaves_one_room() {
    assert_eq!(traced(&[], 0), Ok((accepted(0, 1, 1), vec![])));
    assert_eq!(traced(&[], 3), Ok((accepted(0, 1, 1), vec![])));
}

#[test]
fn each_cause_of_a_refused_move() {
    for kind in (0..=255).filter(|kind| ![1, 2, 3].contains(kind)) {
        assert_eq!(traced(&[kind], 9), refused(Refusal::BadMove, [1, 1, 1]));
        let late = traced(&[1, 0, 1, 1, kind, 2], 9);
        assert_eq!(late, refused(Refusal::BadMove, [3, 3, 3]));
    }
    assert_eq!(traced(&[1], 9), refused(Refusal::BadMove, [1, 1, 1]));
    assert_eq!(traced(&[3, 1], 9), refused(Refusal::BadMove, [2, 1, 1]));
    for triple in 8..=255 {
        let answer = traced(&[1, 0, 1, triple, 2], 9);
        assert_eq!(answer, refused(Refusal::BadMove, [2, 2, 2]));
    }
    assert_eq!(traced(&[2], 9), refused(Refusal::OnlyRoom, [1, 1, 1]));
    let emptied = traced(&[1, 2, 2, 3, 2], 9);
    assert_eq!(emptied, refused(Refusal::OnlyRoom, [4, 1, 1]));
    for triple in [3, 4, 6, 7] {
        let answer = traced(&[1, triple], 9);
        assert_eq!(answer, refused(Refusal::RunMissing, [1, 1, 1]));
    }
    // With p = 1 and q = 0, and the other way round.
    assert_eq!(
        traced(&[1, 0, 1, 4], 9),
        refused(Refusal::RunMissing, [2, 2, 2])
    );
    assert_eq!(
        traced(&[1, 1, 1, 7], 9),
        refused(Refusal::RunMissing, [2, 2, 2])
    );
    assert_eq!(traced(&[1, 0, 3], 9), refused(Refusal::RunsLeft, [2, 2, 2]));
}

#[test]
fn the_plan_has_at_most_255_rooms() {
    let all = adds(&Walked::rising(255).triples);
    let (answer, entries) = traced(&all, 254).expect("254 moves");
    assert_eq!(answer, accepted(254, 255, 1));
    let expected: Vec<u16> = (2..=255).map(|rooms| 256 * rooms + 1).collect();
    assert_eq!(entries, expected);
    for triple in 0..8 {
        // 1 comes before 12.
        let one_more = [&all[..], &[1, triple]].concat();
        assert_eq!(
            traced(&one_more, 0),
            refused(Refusal::ListLength, [255, 255, 1])
        );
    }
    // 28 comes before 1.
    for bad in [&[1][..], &[1, 8], &[0], &[4]] {
        let bytes = [&all[..], bad].concat();
        assert_eq!(traced(&bytes, 0), refused(Refusal::BadMove, [255, 255, 1]));
    }
    let instead = [&all[..], &[2, 1, 5, 3]].concat();
    assert_eq!(
        traced(&instead, 257).expect("257 moves").0,
        accepted(257, 255, 1)
    );
}

#[test]
fn there_are_at_most_255_runs() {
    for triple in [0, 1] {
        let all = [1, triple].repeat(254);
        let (answer, entries) = traced(&all, 254).expect("254 moves");
        assert_eq!(answer, accepted(254, 255, 255));
        assert!(entries.into_iter().eq((2..=255).map(|count| 257 * count)));
        let claim = [&all[..], &[3]].concat();
        assert_eq!(
            traced(&claim, 0),
            refused(Refusal::RunsLeft, [255, 255, 255])
        );
    }
}

#[test]
fn a_trace_has_at_most_65_535_bytes() {
    let claims = [3; TRACE_LENGTH + 1];
    let (answer, entries) = traced(&claims[1..], TRACE_LENGTH).expect("claims");
    assert_eq!(answer, accepted(TRACE_LENGTH, 1, 1));
    assert!(entries.iter().all(|&entry| entry == 257));
    let long = Err(Refusal::BookLength.into());
    assert_eq!(traced(&claims, TRACE_LENGTH + 1), long);
    // Before all moves, and before the slice is looked at.
    let mut bad_first = claims;
    bad_first[0] = 0;
    assert_eq!(traced(&bad_first, TRACE_LENGTH + 1), long);
    assert_eq!(traced(&bad_first, 0), long);
    let last = traced(&bad_first[..TRACE_LENGTH], 0);
    assert_eq!(last, refused(Refusal::BadMove, [1, 1, 1]));
}

/// The slice is judged after the last move.
#[test]
fn a_refused_move_comes_before_the_slice() {
    let refused_late = [1, 2, 1, 2, 2, 2, 2];
    for capacity in 0..8 {
        let answer = traced(&refused_late, capacity);
        assert_eq!(answer, refused(Refusal::OnlyRoom, [5, 1, 1]));
    }
}

#[test]
fn the_triples_of_a_record_and_a_claim() {
    for (_, record) in LISTS {
        let triples = triples_in(record).expect("a record");
        let bytes = [&adds(&triples)[..], &[3]].concat();
        let (answer, _) = traced(&bytes, 99).expect("a plan");
        assert_eq!(answer, accepted(triples.len() + 1, record[0], 1));
    }
    for (record, refusal) in &REFUSED_RECORDS[..2] {
        let bytes = [&adds(&triples_in(record).expect("triples"))[..], &[3]].concat();
        let answer = traced(&bytes, 99).unwrap_err();
        assert_eq!(answer.refusal, *refusal, "{record:02x?}");
    }
    let bytes = adds(&code_of_figure_7());
    let runs: Vec<u16> = traced(&bytes, 6)
        .expect("a plan")
        .1
        .iter()
        .map(|e| e % 256)
        .collect();
    assert_eq!(runs, [2, 2, 2, 3, 2, 1]);
}

#[test]
fn every_code_of_up_to_5_rooms_is_a_trace_that_is_refused_alike() {
    for n in 1..=5 {
        for code in every_code(n) {
            let bytes = [&adds(&code)[..], &[3]].concat();
            let answer = trace(&bytes, &mut [0; 5]).map_err(|refused| refused.refusal);
            let rooms = labels_of(&code).map(|labels| labels.len());
            assert_eq!(answer.map(|answer| usize::from(answer.rooms)), rooms);
        }
    }
}

/// Whatever was taken away meanwhile.
#[test]
fn the_end_is_what_the_triples_still_present_give() {
    let mut random = Random::from_seed(251);
    for _ in 0..40 {
        let draft = Draft::random(400, Habits::some(&mut random), &mut random);
        let mut present = Vec::new();
        for (&place, &entry) in draft.places.iter().zip(&draft.entries) {
            match draft.bytes[place] {
                1 => present.extend([1, draft.bytes[place + 1]]),
                2 => present.truncate(present.len() - 2),
                _ => {}
            }
            let (answer, _) = traced(&present, 300).expect("the triples present");
            assert_eq!([answer.rooms, answer.runs], entry.to_be_bytes());
        }
    }
}

#[test]
fn refusals_say_which_move_it_is() {
    let refused = traced(&[1, 0, 3], 9).unwrap_err();
    let words = "move 2 of the trace, after rooms 2 and runs 2: more than one run at the end";
    assert_eq!(refused.to_string(), words);
    let refused = TraceRefusal::from(Refusal::SliceShort);
    assert_eq!(refused.to_string(), "an output slice too short");
}
