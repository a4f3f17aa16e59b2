//! Inputs of "Trace".

use crate::records::damaged;
use crate::size::{by_definitions, capacities, some_walk};
use compare::{GivenTrace, Tally};
use reference::cases::trace::{adds, Draft, Fault, Habits};
use reference::cases::Random;
use reference::{triples_in, TRACE_LENGTH};

/// Traces of a turn.
const TRACES: usize = 5;

/// Traces of so many bytes are always held to the definitions.
const SHORT: usize = 100;

/// Compares some traces: accepted ones, with a fault, with damage, and those of
/// records.
pub fn compare_some(tally: &mut Tally, random: &mut Random) {
    for _ in 0..TRACES {
        let bytes = match random.below(16) {
            0..=7 => some_draft(random).bytes,
            8..=11 => with_fault(random),
            12..=14 => with_damage(random),
            _ => of_a_record(random),
        };
        compare(tally, bytes, random);
    }
}

/// Compares a trace in a slice of some length.
fn compare(tally: &mut Tally, bytes: Vec<u8>, random: &mut Random) {
    let given = if by_definitions(bytes.len(), SHORT, random) {
        GivenTrace::new(bytes)
    } else {
        GivenTrace::quick(bytes)
    };
    let [capacity] = capacities([given.moves()], random);
    let _ = tally.trace(&given, capacity);
}

/// A trace that is accepted: mostly a short one, at times one that is as long as
/// can be.
fn some_draft(random: &mut Random) -> Draft {
    let length = match random.below(2_000) {
        0 => TRACE_LENGTH - random.below(3),
        1..=19 => random.between(300, 3_000),
        20..=199 => random.between(41, 300),
        _ => random.between(0, 40),
    };
    match random.below(8) {
        0 => Draft::up_and_down(random.between(1, 254), length, random),
        1 => Draft::alternating(random.between(0, 254), length, random),
        _ => Draft::random(length, Habits::some(random), random),
    }
}

/// A trace with one of the faults that a move can have, or with too many bytes.
fn with_fault(random: &mut Random) -> Vec<u8> {
    if random.below(50) == 0 {
        let length = TRACE_LENGTH + random.between(1, 3);
        return vec![random.pick(&[0, 1, 3]); length];
    }
    let fault = random.pick(&Fault::ALL);
    some_draft(random).with_fault(fault, random).bytes
}

/// A trace with some bytes changed, which may still be accepted.
fn with_damage(random: &mut Random) -> Vec<u8> {
    let mut bytes = some_draft(random).bytes;
    for _ in 0..random.pick(&[1, 1, 1, 2, 3]) {
        let place = random.between(0, bytes.len());
        let byte = random.byte();
        match bytes.get_mut(place) {
            None => bytes.push(random.pick(&[1, 2, 3])),
            Some(changed) => match random.below(6) {
                0 => *changed = byte,
                1 => *changed ^= 1 << random.below(8),
                2 | 3 => *changed = random.pick(&[1, 2, 3]),
                4 => drop(bytes.remove(place)),
                _ => bytes.insert(place, random.pick(&[1, 2, 3])),
            },
        }
    }
    bytes
}

/// The triples of a record, which may have damage, and a claim.
fn of_a_record(random: &mut Random) -> Vec<u8> {
    let walked = some_walk(random);
    let triples = match triples_in(&damaged(&walked.record(), random)) {
        Ok(triples) if random.below(2) == 0 => triples,
        _ => walked.triples,
    };
    [&adds(&triples)[..], &[3]].concat()
}
