//! Baxter lists of up to 255 labels.

use compare::records::record_length;
use compare::Tally;
use reference::cases::walk::{biased_list, mostly_small_count, random_list, some_count, Walked};
use reference::Refusal;

/// Compares a list whose record is that of its walk.
fn expect_record(tally: &mut Tally, walked: &Walked) {
    let record = walked.record();
    assert_eq!(record.len(), record_length(walked.labels.len()));
    tally.expect_record(&walked.labels, &record);
}

#[test]
fn random_baxter_lists_have_the_record_of_their_walk() {
    Tally::random_walks(
        ("random Baxter lists", 1),
        ("Baxter lists of 1, 2, .. 255 labels", 2),
        expect_record,
    );
}

#[test]
fn turned_over_baxter_lists_are_accepted_too() {
    // Read backwards, with the labels counted from the other end, or with
    // labels and positions in each other's place, a Baxter list is one again:
    // the two conditions of a barred pattern only trade places.
    const LISTS: usize = 2_500;
    let name = "Baxter lists turned over";
    let tally = Tally::of_rounds(name, 3, 0..LISTS, |tally, random, _| {
        let labels = biased_list(some_count(random), random).labels;
        let n = u8::try_from(labels.len()).expect("at most 255 labels");
        let backwards: Vec<u8> = labels.iter().rev().copied().collect();
        let counted_down: Vec<u8> = labels.iter().map(|label| n - (label - 1)).collect();
        let mut traded = vec![0; labels.len()];
        for (position, &label) in (1..=n).zip(&labels) {
            traded[usize::from(label) - 1] = position;
        }
        for turned in [backwards, counted_down, traded] {
            let answer = tally.labels_in(&turned, 97);
            assert_eq!(answer, Ok(record_length(turned.len())), "{turned:?}");
        }
    });
    tally.finish(3 * LISTS);
}

#[test]
fn rising_and_falling_lists_of_every_count() {
    let mut tally = Tally::new("rising and falling lists");
    for n in 1..=255 {
        expect_record(&mut tally, &Walked::rising(n));
        expect_record(&mut tally, &Walked::falling(n));
    }
    tally.finish_in_threes(2 * 255);
}

#[test]
fn lists_with_as_many_runs_as_there_can_be() {
    let mut tally = Tally::new("lists with 128 runs");
    for mut walked in Walked::with_128_runs() {
        expect_record(&mut tally, &walked);
        // The gaps filled from the far end: the first jump goes over 126 runs.
        walked.labels[128..].reverse();
        tally.expect_refusal(&walked.labels, 97, Refusal::BarredPattern);
    }
    tally.finish(2 * 3 + 2);
}

#[test]
fn every_bit_of_the_longest_record_is_0_in_one_list_and_1_in_another() {
    const LISTS: usize = 500;
    let mut cleared = [0; 97];
    let mut set = [0; 97];
    Tally::in_threes("lists of 255 labels", 5, LISTS, |tally, random, _| {
        let walked = random_list(255, random);
        expect_record(tally, &walked);
        for (at, byte) in walked.record().into_iter().enumerate() {
            cleared[at] |= !byte;
            set[at] |= byte;
        }
    });
    // The 762 bits of the triples; the last six bits are spare.
    let mut triples = [0xff; 96];
    assert_eq!(cleared[1..], triples);
    triples[95] = 0xc0;
    assert_eq!(set[1..], triples);
}

#[test]
fn random_permutations_and_random_bytes() {
    const LISTS: usize = 10_000;
    let name = "random permutations and random bytes";
    let tally = Tally::of_rounds(name, 4, 0..LISTS, |tally, random, _| {
        let mut labels: Vec<u8> = (1..=mostly_small_count(random)).collect();
        random.shuffle(&mut labels);
        let _ = tally.labels_in(&labels, random.between(0, 100));

        let length = random.between(0, 300);
        let bytes: Vec<u8> = (0..length).map(|_| random.byte()).collect();
        let _ = tally.labels_in(&bytes, random.between(0, 100));

        // Entries that are all in range, drawn with repeats.
        let n = random.pick(&[2, 3, 4, 5, 6, 255]);
        let drawn: Vec<u8> = (0..n).map(|_| random.byte() % n + 1).collect();
        let _ = tally.labels_in(&drawn, random.between(0, 100));
    });
    tally.expect_often(500, &Refusal::OF_LABELS);
    tally.finish(3 * LISTS);
}
