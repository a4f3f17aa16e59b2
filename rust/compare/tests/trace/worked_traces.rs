//! Traces that can be judged by eye.

use crate::help::{refused, traced};
use compare::{GivenTrace, Tally};
use reference::cases::trace::adds;
use reference::cases::worked::{code_of_figure_7, LISTS};
use reference::{triples_in, Refusal};

/// Accepted traces: the entries as rooms and runs after each move.
const ACCEPTED: [(&[u8], &[[u8; 2]]); 9] = [
    (&[], &[]),
    (&[3], &[[1, 1]]),
    (&[3, 3, 3], &[[1, 1], [1, 1], [1, 1]]),
    (&[1, 2], &[[2, 1]]),
    (&[1, 0, 2, 1, 1], &[[2, 2], [1, 1], [2, 2]]),
    // 010 and 001, which is taken away and added again, then 110 and a claim
    (
        &[1, 2, 1, 1, 2, 1, 1, 1, 6, 3],
        &[[2, 1], [3, 2], [2, 1], [3, 2], [4, 1], [4, 1]],
    ),
    // 000 and 111, the newest room taken away, 111 again and a claim
    (
        &[1, 0, 1, 7, 2, 1, 7, 3],
        &[[2, 2], [3, 1], [2, 2], [3, 1], [3, 1]],
    ),
    // 001 and 100, which goes up to the run above: now that below is left
    (&[1, 1, 1, 4, 1, 7, 3], &[[2, 2], [3, 2], [4, 1], [4, 1]]),
    // a room, a claim, no room more, a claim, and another room
    (
        &[1, 5, 3, 2, 3, 1, 2],
        &[[2, 1], [2, 1], [1, 1], [1, 1], [2, 1]],
    ),
];

#[test]
fn accepted_traces() {
    let mut tally = Tally::new("accepted traces");
    for (bytes, expected) in ACCEPTED {
        let [rooms, runs] = expected.last().copied().unwrap_or([1, 1]);
        let answer = traced(expected.len(), rooms, runs);
        tally.expect_traced(&GivenTrace::new(bytes), answer);
        let mut states = vec![0; expected.len()];
        nenturxo::trace(bytes, &mut states).expect("an accepted trace");
        let entries: Vec<[u8; 2]> = states.iter().map(|entry| entry.to_be_bytes()).collect();
        assert_eq!(entries, expected, "{bytes:?}");
    }
    tally.finish(3 * ACCEPTED.len() - 1);
}

#[test]
fn refused_traces() {
    let mut tally = Tally::new("refused traces");
    let cases = [
        (&[0][..], refused(Refusal::BadMove, 1, 1, 1)),
        (&[4], refused(Refusal::BadMove, 1, 1, 1)),
        (&[1], refused(Refusal::BadMove, 1, 1, 1)),
        (&[1, 8], refused(Refusal::BadMove, 1, 1, 1)),
        (&[1, 2, 1], refused(Refusal::BadMove, 2, 2, 1)),
        (&[2], refused(Refusal::OnlyRoom, 1, 1, 1)),
        (&[1, 0, 2, 2], refused(Refusal::OnlyRoom, 3, 1, 1)),
        (&[1, 3], refused(Refusal::RunMissing, 1, 1, 1)),
        (&[1, 0, 1, 6], refused(Refusal::RunMissing, 2, 2, 2)),
        (&[1, 1, 1, 3], refused(Refusal::RunMissing, 2, 2, 2)),
        // the only run below has been joined
        (&[1, 0, 1, 7, 1, 7], refused(Refusal::RunMissing, 3, 3, 1)),
        (&[1, 0, 3], refused(Refusal::RunsLeft, 2, 2, 2)),
        (&[1, 1, 1, 6, 3, 2, 3], refused(Refusal::RunsLeft, 5, 2, 2)),
        (&[1, 0, 1, 0, 1, 1, 3], refused(Refusal::RunsLeft, 4, 4, 4)),
    ];
    for (bytes, expected) in cases {
        tally.expect_refused_trace(&GivenTrace::new(bytes), expected);
    }
    tally.finish(3 * cases.len());
}

/// Every plan of the sheet is built room by room.
#[test]
fn the_sheet_s_plans() {
    let mut tally = Tally::new("the sheet's plans as traces");
    for (labels, record) in LISTS {
        let triples = triples_in(record).expect("a record");
        let bytes = [&adds(&triples)[..], &[3]].concat();
        let answer = traced(labels.len(), record[0], 1);
        tally.expect_traced(&GivenTrace::new(bytes), answer);
    }
    // The code that is printed with Figure 7 of 001.
    let mut states = [0; 6];
    nenturxo::trace(&adds(&code_of_figure_7()), &mut states).expect("a plan");
    let runs = states.map(|entry| entry % 256);
    assert_eq!(runs, [2, 2, 2, 3, 2, 1]);
    tally.finish(3 * LISTS.len());
}
