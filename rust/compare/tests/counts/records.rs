//! Records that the library accepts, counted by their rises.

use crate::help::{counts, rises_in, total};
use compare::records::record_length;
use compare::{grouped, report, LibraryPlan};
use reference::cases::walk::each_walk;
use reference::record_of;

/// How many records of `n` rooms, at most 8, with these bodies are accepted, by
/// their rises. A body stands in the low bytes of its number.
fn counted(n: u8, bodies: impl Iterator<Item = u32>) -> Vec<u64> {
    let length = record_length(n.into()) - 1;
    let mut counted = vec![0; n.into()];
    for body in bodies {
        let record = [&[n], &body.to_be_bytes()[4 - length..]].concat();
        if LibraryPlan::of(&record).is_ok() {
            counted[rises_in(&record)] += 1;
        }
    }
    counted
}

#[test]
fn every_body_of_up_to_6_rooms() {
    for (n, length) in (1..).zip([0, 1, 1, 2, 2, 2]) {
        let bodies = 0..1 << (8 * length);
        assert_eq!(counted(n, bodies), counts(n), "n = {n}");
    }
}

/// All triples. The spare bits are 0: no other record is accepted.
#[test]
fn every_code_of_7_and_8_rooms() {
    for (n, bits) in [(7, 18), (8, 21)] {
        let bodies = (0..1 << bits).map(|code| code << (24 - bits));
        assert_eq!(counted(n, bodies), counts(n), "n = {n}");
    }
}

/// All records that the steps of the sheet lead to, each of which the library must
/// accept. With those of 11 rooms the misprint in 003 is decided by counting.
#[test]
fn every_walk_of_9_to_11_rooms() {
    let mut plans = 0;
    for n in 9..=11 {
        let mut counted = vec![0; n.into()];
        each_walk(n.into(), |triples| {
            let record = record_of(n, triples);
            assert!(LibraryPlan::of(&record).is_ok(), "{record:02X?}");
            counted[rises_in(&record)] += 1;
        });
        assert_eq!(counted, counts(n), "n = {n}");
        assert_eq!(counted.iter().sum::<u64>(), total(n), "n = {n}");
        plans += counted.iter().sum::<u64>() as usize;
    }
    let plans = grouped(plans);
    report(format_args!(
        "{plans} plans of 9 to 11 rooms by their rises"
    ));
    assert_eq!(plans, "2,267,402");
}
