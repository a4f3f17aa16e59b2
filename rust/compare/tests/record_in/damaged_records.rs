//! Records with damage: each refusal for its own cause, and in the order
//! 9, 10, 11, 14, 12, 13 where there are several.

use compare::damage::Damage;
use compare::{each_times, GivenRecord, Tally};
use reference::cases::walk::biased_list;
use reference::{plan_of, record_of, Refusal, TRIPLES};

#[test]
fn every_damage_alone_and_with_every_other() {
    const RECORDS: usize = 500;
    let damages = each_times(Damage::all(), RECORDS);
    let tally = Tally::of_rounds("damaged records", 81, damages, |tally, random, damage| {
        let record = damage.record(random);
        if let Some(refusal) = damage.refusal() {
            tally.expect_refused_record(&record, refusal);
        } else {
            let plan = plan_of(&record).expect("a record without damage is accepted");
            tally.expect_labels(&record, &plan.labels);
        }
    });
    // Of the 48 combinations half have no kind; of the others a third lacks
    // bytes, a third has too many; and so on.
    let counts = [24, 8, 8, 4, 2, 1].map(|combinations| combinations * 3 * RECORDS);
    tally.expect_refused(Refusal::OF_RECORDS, counts);
    assert_eq!(tally.accepted(), 2 * RECORDS);
    tally.finish(Damage::COUNT * 3 * RECORDS);
}

#[test]
fn each_spare_bit_beats_what_the_triples_lack() {
    let mut tally = Tally::new("spare bits of every count");
    // All triples 000 leave runs; with 111 in front a run is missing.
    for n in 2..=255u8 {
        let steps = usize::from(n) - 1;
        let mut missing = vec![TRIPLES[0]; steps];
        missing[0] = TRIPLES[7];
        for (triples, refusal) in [
            (vec![TRIPLES[0]; steps], Refusal::RunsLeft),
            (missing, Refusal::RunMissing),
        ] {
            let record = record_of(n, &triples);
            tally.expect_refused_record(&record, refusal);
            let last = record.len() - 1;
            for spare in 0..8 * last - 3 * steps {
                let mut record = record.clone();
                record[last] |= 1 << spare;
                tally.expect_refused_record(&record, Refusal::SpareBit);
            }
        }
    }
    tally.finish(2 * 3 * 254 * 4);
}

#[test]
fn a_missing_run_anywhere_beats_runs_left_at_the_end() {
    let mut tally = Tally::new("a run missing at every place");
    // Rising labels up to some place, then a need that is not met, then new
    // runs up to the end.
    for n in [2, 3, 4, 9, 40, 254, 255u8] {
        for place in 0..usize::from(n) - 1 {
            for wrong in [2, 3, 6, 7] {
                let mut triples = vec![TRIPLES[0]; usize::from(n) - 1];
                triples[..place].fill(TRIPLES[1]);
                triples[place] = TRIPLES[wrong];
                tally.expect_refused_record(&record_of(n, &triples), Refusal::RunMissing);
            }
        }
    }
    tally.finish(3 * 4 * (1 + 2 + 3 + 8 + 39 + 253 + 254));
}

#[test]
fn a_kind_that_is_not_the_bodys() {
    let name = "records with another kind";
    let tally = Tally::of_rounds(name, 82, 0..40, |tally, random, _| {
        let n = random.between(1, 255);
        let mut record = biased_list(n, random).record();
        for kind in 0..=255 {
            record[0] = kind;
            let _ = tally.record_in(&GivenRecord::new(&record[..]), [255; 2]);
        }
    });
    tally.expect_refused([Refusal::NoKind], [40]);
    assert!(tally.accepted() >= 40);
    tally.finish(40 * 256);
}
