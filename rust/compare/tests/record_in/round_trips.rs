//! There and back through the library alone, without the definitions.

use compare::{repeat, report, LibraryPlan};
use nenturxo::{labels_in, Refusal, RECORD_CAPACITY};
use reference::cases::walk::list_in_turn;
use reference::cases::{baxter_lists_up_to, each_permutation};

/// The record of a label list.
fn record_of(labels: &[u8]) -> Result<Vec<u8>, Refusal> {
    let mut record = [0; RECORD_CAPACITY];
    let length = labels_in(labels, &mut record)?;
    Ok(record[..length].to_vec())
}

/// The labels of a record. Its rooms must give the record back too.
fn labels_of(record: &[u8]) -> Result<Vec<u8>, Refusal> {
    LibraryPlan::there_and_back(record).map(|plan| plan.labels)
}

#[test]
fn every_accepted_list_of_up_to_8_labels_comes_back() {
    let mut lists = 0;
    for n in 1..=8 {
        each_permutation(n, |labels| {
            if let Ok(record) = record_of(labels) {
                assert_eq!(labels_of(&record).as_deref(), Ok(labels));
                lists += 1;
            }
        });
    }
    report(format_args!("{lists} lists of up to 8 labels came back"));
    assert_eq!(lists, baxter_lists_up_to(8));
}

#[test]
fn every_accepted_code_of_up_to_7_rooms_comes_back() {
    let mut records = 0;
    for n in 1..=7u8 {
        let bits = 3 * usize::from(n) - 3;
        for code in 0..1u32 << bits {
            // The bits stand at the top of the body.
            let body = code
                .checked_shl(32 - bits as u32)
                .unwrap_or(0)
                .to_be_bytes();
            let record = [&[n], &body[..bits.div_ceil(8)]].concat();
            if let Ok(labels) = labels_of(&record) {
                assert_eq!(record_of(&labels), Ok(record));
                records += 1;
            }
        }
    }
    report(format_args!("{records} records of up to 7 rooms came back"));
    assert_eq!(records, baxter_lists_up_to(7));
}

#[test]
fn random_lists_and_their_records_come_back() {
    const LISTS: usize = 20_000;
    repeat(61, 0..LISTS, |random, round| {
        let n = random.between(1, 255);
        let walked = list_in_turn(n, round, random);
        assert_eq!(record_of(&walked.labels), Ok(walked.record()));
        assert_eq!(labels_of(&walked.record()), Ok(walked.labels));
    });
    report(format_args!("{LISTS} random lists and records came back"));
}
