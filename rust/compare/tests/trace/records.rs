//! The triples of a record as a trace with a claim at the end: it is accepted
//! exactly if the record is, and else refused with the same number.

use crate::help::{expect_known, traced};
use compare::damage::Damage;
use compare::{each_times, GivenRecord, GivenTrace, Tally};
use reference::cases::trace::{adds, Draft};
use reference::cases::walk::{any_record, list_in_turn, some_count, Walked};
use reference::cases::{baxter_lists_up_to, every_code};
use reference::{record_of, triples_in, Refusal, TRIPLES};

/// Compares the trace of a record's triples and a claim. The record has the form
/// that its kind fixes.
fn compare(tally: &mut Tally, record: &[u8]) -> Result<(), Refusal> {
    let triples = triples_in(record).expect("the form of a record");
    let given = GivenTrace::new([&adds(&triples)[..], &[3]].concat());
    let answer = tally.trace(&given, triples.len() + 1);
    let plan = GivenRecord::new(record).answer;
    match (answer, plan) {
        (Ok(answer), Ok(plan)) => {
            let rooms = plan.labels.len();
            assert_eq!(answer, traced(rooms, rooms as u8, 1), "{record:02X?}");
            Ok(())
        }
        (Err(bad), Err(refusal)) => {
            assert_eq!(bad.refusal, refusal, "{record:02X?}");
            Err(refusal)
        }
        (answer, _) => panic!("{answer:?} for the triples of {record:02X?}"),
    }
}

#[test]
fn every_code_of_up_to_6_rooms() {
    let mut tally = Tally::new("traces of every code of up to 6 rooms");
    for n in 1..=6 {
        for code in every_code(n) {
            let _ = compare(&mut tally, &record_of(n, &code));
        }
    }
    assert_eq!(tally.accepted(), baxter_lists_up_to(6));
    tally.finish(1 + 8 + 64 + 512 + 4_096 + 32_768);
}

#[test]
fn random_plans_of_up_to_255_rooms() {
    const PLANS: usize = 2_000;
    let name = "traces of random plans";
    let tally = Tally::of_rounds(name, 751, 0..PLANS, |tally, random, round| {
        let walked = list_in_turn(some_count(random), round, random);
        assert_eq!(compare(tally, &walked.record()), Ok(()));
        let mut draft = Draft::of(&walked);
        draft.claim();
        expect_known(tally, &draft);
    });
    tally.finish(PLANS * 5);
}

/// Both ways in which the steps of a record can be wrong, and both at once.
#[test]
fn damaged_records() {
    const RECORDS: usize = 400;
    let of_steps = [None, Some(Refusal::RunMissing), Some(Refusal::RunsLeft)];
    let damages = Damage::all().filter(|damage| of_steps.contains(&damage.refusal()));
    let name = "traces of damaged records";
    let damages = each_times(damages, RECORDS);
    let tally = Tally::of_rounds(name, 752, damages, |tally, random, damage| {
        let record = damage.record(random);
        assert_eq!(compare(tally, &record).err(), damage.refusal());
    });
    let counts = [2 * RECORDS, RECORDS];
    tally.expect_refused([Refusal::RunMissing, Refusal::RunsLeft], counts);
    assert_eq!(tally.accepted(), RECORDS);
    tally.finish(4 * RECORDS);
}

#[test]
fn records_with_one_triple_changed() {
    const RECORDS: usize = 2_000;
    let name = "traces of records with a triple changed";
    let tally = Tally::of_rounds(name, 753, 0..RECORDS, |tally, random, round| {
        let n = random.pick(&[2, 3, 5, 9, 30, 100, 255]);
        let mut walked: Walked = list_in_turn(n, round, random);
        walked.triples[random.below(n - 1)] = random.pick(&TRIPLES);
        let _ = compare(tally, &walked.record());
    });
    tally.expect_often(RECORDS / 10, &[Refusal::RunMissing, Refusal::RunsLeft]);
    assert!(tally.accepted() > RECORDS / 8, "{}", tally.accepted());
    tally.finish(RECORDS);
}

#[test]
fn any_triples() {
    const RECORDS: usize = 5_000;
    let name = "traces of any triples";
    let tally = Tally::of_rounds(name, 754, 0..RECORDS, |tally, random, round| {
        let _ = compare(tally, &any_record(round, random));
    });
    tally.expect_often(RECORDS / 10, &[Refusal::RunMissing, Refusal::RunsLeft]);
    tally.finish(RECORDS);
}
