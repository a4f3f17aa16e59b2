//! Each fault that a move can have, at any place of a trace. Whatever follows the
//! refused move counts for nothing.

use crate::help::some_trace;
use compare::{each_times, GivenTrace, Tally};
use reference::cases::trace::{Draft, Fault, Habits, ALL_TRIPLES};
use reference::{Refusal, RefusedMove};

#[test]
fn every_fault_after_some_moves() {
    const TRACES: usize = 300;
    let name = "traces with a fault";
    let faults = each_times(Fault::ALL.into_iter(), TRACES);
    let tally = Tally::of_rounds(name, 731, faults, |tally, random, fault| {
        let length = random.pick(&[0, 1, 7, 8, 9, 60, 123, 124, 125, 700]);
        let faulty = some_trace(length, random).with_fault(fault, random);
        let given = GivenTrace::new(&faulty.bytes[..]);
        tally.expect_refused_trace(&given, faulty.refused);
    });
    // Three of the seven are refused with 28.
    let [_, of_moves @ ..] = Refusal::OF_TRACES;
    let counts = [3, 1, 1, 1, 1].map(|faults| 3 * faults * TRACES);
    tally.expect_refused(of_moves, counts);
    tally.finish(3 * 7 * TRACES);
}

/// The ordinal and the rooms and runs before the move, wherever it stands.
#[test]
fn a_fault_instead_of_each_move() {
    let name = "a fault instead of each move";
    let mut cases = 0;
    let tally = Tally::of_rounds(name, 732, 0..12, |tally, random, _| {
        let draft = some_trace(random.between(100, 200), random);
        for (index, &place) in draft.places.iter().enumerate() {
            let before = match index.checked_sub(1) {
                None => 257,
                Some(last) => draft.entries[last],
            };
            let [rooms, runs] = before.to_be_bytes();
            let at = RefusedMove {
                ordinal: index + 1,
                rooms,
                runs,
            };
            for bad in [&[0][..], &[4], &[1, 8], &[1, 255], &[129], &[130], &[131]] {
                let bytes = [&draft.bytes[..place], bad, &draft.bytes[place..]].concat();
                let answer = tally.trace(&GivenTrace::new(bytes), 300).unwrap_err();
                assert_eq!((answer.refusal, answer.at), (Refusal::BadMove, Some(at)));
                cases += 1;
            }
        }
    });
    tally.expect_refused([Refusal::BadMove], [cases]);
    tally.finish(cases);
}

/// All kinds but the three, and all triples above 7.
#[test]
fn every_unknown_kind_and_every_triple_above_7() {
    let name = "unknown kinds and triples above 7";
    let tally = Tally::of_rounds(name, 733, 0..6, |tally, random, round| {
        let draft = some_trace(10 * round, random);
        let expected = draft.refused(Refusal::BadMove);
        let mut expect = |bad: &[u8]| {
            let given = GivenTrace::new([&draft.bytes[..], bad].concat());
            tally.expect_refused_trace(&given, expected);
        };
        for kind in (0..=255).filter(|kind| !(1..=3).contains(kind)) {
            expect(&[kind]);
            expect(&[kind, 2, 3]);
        }
        for triple in 8..=255 {
            expect(&[1, triple]);
            expect(&[1, triple, 3, 3]);
        }
        expect(&[1]);
    });
    tally.finish(6 * 3 * (2 * 253 + 2 * 248 + 1));
}

/// Every triple at every p and q up to 3, and whether it needs a run that is
/// missing.
#[test]
fn every_triple_with_every_few_runs() {
    let mut tally = Tally::new("triples with few runs");
    for q in 0..=3 {
        for p in 0..=3 {
            let mut draft = Draft::default();
            // Runs above the current one, and then runs below it.
            (0..q).for_each(|_| draft.add(0b001));
            (0..p).for_each(|_| draft.add(0b000));
            for &triple in ALL_TRIPLES {
                let needs_above = [0b100, 0b110].contains(&triple);
                let needs_below = [0b011, 0b111].contains(&triple);
                let lacks = needs_above && q == 0 || needs_below && p == 0;
                assert_eq!(draft.allows(triple), !lacks);
                let given = GivenTrace::new([&draft.bytes[..], &[1, triple]].concat());
                if lacks {
                    tally.expect_refused_trace(&given, draft.refused(Refusal::RunMissing));
                } else {
                    let mut longer = draft.clone();
                    longer.add(triple);
                    tally.expect_traced(&given, longer.answer());
                }
            }
        }
    }
    tally.finish(4 * 4 * 8 * 3);
}

/// Claims wherever there is one run, and wherever there are more.
#[test]
fn a_claim_after_each_move() {
    let name = "a claim after each move";
    let mut cases = 0;
    let tally = Tally::of_rounds(name, 734, 0..20, |tally, random, _| {
        let draft = Draft::random(200, Habits::new(4, 3, 0).with(&[0, 2, 5, 7, 1, 6]), random);
        let ends = draft.places.iter().copied().skip(1).chain([200]);
        for (end, entry) in ends.zip(&draft.entries) {
            let bytes = [&draft.bytes[..end], &[3]].concat();
            let answer = tally.trace(&GivenTrace::new(bytes), 201);
            let refusal = (entry % 256 > 1).then_some(Refusal::RunsLeft);
            assert_eq!(answer.err().map(|bad| bad.refusal), refusal);
            cases += 1;
        }
    });
    tally.expect_often(cases / 10, &[Refusal::RunsLeft]);
    assert!(tally.accepted() > cases / 20, "{}", tally.accepted());
    tally.finish(cases);
}
