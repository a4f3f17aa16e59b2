//! Every trace that is short enough, be it accepted or not.

use compare::{GivenTrace, Tally};
use reference::cases::every_list;
use reference::Refusal;

/// All that a byte can be, of each sort at least one: the three kinds, other
/// kinds, triples and what is no triple.
const BYTES: [u8; 7] = [0, 1, 2, 3, 4, 7, 8];

/// The moves: a room is added with each triple, taken away, or one run claimed.
const MOVES: [&[u8]; 10] = [
    &[1, 0],
    &[1, 1],
    &[1, 2],
    &[1, 3],
    &[1, 4],
    &[1, 5],
    &[1, 6],
    &[1, 7],
    &[2],
    &[3],
];

#[test]
fn every_trace_of_up_to_5_bytes() {
    let mut tally = Tally::new("traces of up to 5 bytes");
    let mut traces = 0;
    for length in 0..=5 {
        for digits in every_list(6, length) {
            let bytes: Vec<u8> = digits
                .iter()
                .map(|&digit| BYTES[usize::from(digit)])
                .collect();
            let given = GivenTrace::new(bytes);
            for capacity in 0..=6 {
                let _ = tally.trace(&given, capacity);
            }
            traces += 1;
        }
    }
    assert_eq!(traces, 1 + 7 + 49 + 343 + 2_401 + 16_807);
    // No room can be past 255 here, nor any trace too long.
    tally.expect_refused([Refusal::ListLength, Refusal::BookLength], [0, 0]);
    let [.., bad_move, _, only_room, run_missing, runs_left] = Refusal::OF_TRACES;
    tally.expect_often(1_000, &[bad_move, only_room, run_missing]);
    tally.expect_often(100, &[runs_left, Refusal::SliceShort]);
    tally.finish(7 * traces);
}

#[test]
fn every_trace_of_up_to_2_bytes_of_any_kind() {
    let mut tally = Tally::new("traces of up to 2 bytes of any kind");
    for length in 0..=2 {
        for bytes in every_list(255, length) {
            let given = GivenTrace::new(bytes);
            for capacity in 0..=2 {
                let _ = tally.trace(&given, capacity);
            }
        }
    }
    // No move; a claim; and of two bytes two claims, or a triple that needs no
    // run: each wherever there is an entry for every move.
    assert_eq!(tally.accepted(), 3 + 2 + 1 + 4 * 2);
    tally.finish(3 * (1 + 256 + 65_536));
}

#[test]
fn every_row_of_up_to_5_moves() {
    let mut tally = Tally::new("rows of up to 5 moves");
    for moves in 0..=5 {
        for digits in every_list(9, moves) {
            let row = digits.iter().map(|&digit| MOVES[usize::from(digit)]);
            let given = GivenTrace::new(row.collect::<Vec<_>>().concat());
            let _ = tally.trace(&given, 5);
        }
    }
    // Every move has its kind, its body and a triple.
    tally.expect_refused([Refusal::BadMove, Refusal::SliceShort], [0, 0]);
    assert!(tally.accepted() > 10_000, "{}", tally.accepted());
    tally.finish(111_111);
}
