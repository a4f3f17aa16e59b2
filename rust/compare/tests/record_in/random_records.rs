//! Records of up to 255 rooms.

use compare::records::record_length;
use compare::{GivenRecord, Tally};
use reference::cases::walk::{biased_list, mostly_small_count};
use reference::{record_of, Refusal, TRIPLES};

#[test]
fn records_of_random_walks_have_the_labels_of_their_walk() {
    let any_length = ("records of random walks", 51);
    let each_length = ("records of 1, 2, .. 255 rooms", 52);
    Tally::random_walks(any_length, each_length, |tally, walked| {
        tally.expect_labels(&walked.record(), &walked.labels);
    });
}

#[test]
fn records_with_one_bit_or_one_triple_changed() {
    const RECORDS: usize = 10_000;
    let name = "records with a bit or a triple changed";
    let tally = Tally::of_rounds(name, 53, 0..RECORDS, |tally, random, _| {
        let n = random.between(2, 255);
        let mut walked = biased_list(n, random);
        let mut record = walked.record();
        let place = random.between(1, record.len() - 1);
        record[place] ^= 1 << random.below(8);
        let _ = tally.record_in(&GivenRecord::new(record), [n; 2]);

        walked.triples[random.below(n - 1)] = random.pick(&TRIPLES);
        let _ = tally.record_in(&GivenRecord::new(walked.record()), [n; 2]);
    });
    tally.expect_often(100, &Refusal::OF_RECORDS[3..]);
    assert!(tally.accepted() > RECORDS / 10);
    tally.finish(2 * RECORDS);
}

#[test]
fn random_triples_and_random_bytes() {
    const RECORDS: usize = 10_000;
    let name = "random triples and random bytes";
    let tally = Tally::of_rounds(name, 54, 0..RECORDS, |tally, random, round| {
        let kind = mostly_small_count(random);
        // Codes that never take up another run go on to the end.
        let choices = match round % 2 {
            0 => &TRIPLES[..],
            _ => &[TRIPLES[0], TRIPLES[1], TRIPLES[4], TRIPLES[5]],
        };
        let triples: Vec<_> = (1..kind).map(|_| random.pick(choices)).collect();
        let capacities = [(); 2].map(|()| random.pick(&[0, 5, 12, 255, 300]));
        let _ = tally.record_in(&GivenRecord::new(record_of(kind, &triples)), capacities);

        // Bytes of any number, and as many as the kind fixes.
        let length = random.between(0, 120);
        let bytes: Vec<u8> = (0..length).map(|_| random.byte()).collect();
        let _ = tally.record_in(&GivenRecord::new(bytes), capacities);
        let length = record_length(usize::from(kind)) - 1;
        let body = (0..length).map(|_| random.byte());
        let bytes: Vec<u8> = std::iter::once(kind).chain(body).collect();
        let _ = tally.record_in(&GivenRecord::new(bytes), capacities);
    });
    tally.expect_often(500, &Refusal::OF_RECORDS[1..]);
    tally.expect_often(500, &[Refusal::SliceShort]);
    assert!(tally.accepted() > 500);
    tally.finish(3 * RECORDS);
}
