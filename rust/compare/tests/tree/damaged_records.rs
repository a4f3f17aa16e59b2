//! Records with damage: each refusal for its own cause, and in the order 9,
//! 10, 11, 14, 12, 13, 19, 15 where there are several.

use compare::damage::{leaves_spare_bits, Damage};
use compare::{each_times, GivenTree, Tally};
use reference::cases::slicing::{SlicingPlan, PINWHEELS};
use reference::cases::walk::{any_record, Walked};
use reference::cases::Random;
use reference::{Refusal, TRIPLES};

/// A slicing plan with spare bits, and as many rooms as damage needs.
fn some_plan(random: &mut Random) -> SlicingPlan {
    let n = loop {
        let n = random.pick(&[6, 7, 12, 40, 100, 251]);
        // With a pinwheel there are four rooms more.
        if leaves_spare_bits(n) && leaves_spare_bits(n + 4) {
            break n;
        }
    };
    SlicingPlan::in_turn(n, random.below(2), random)
}

/// Compares a record with every damage, of a plan that is refused so without
/// any, or that has a tree.
fn every_damage(name: &'static str, seed: u64, plan: fn(&mut Random) -> Walked) -> Tally {
    const RECORDS: usize = 60;
    let damages = each_times(Damage::all(), RECORDS);
    let tally = Tally::of_rounds(name, seed, damages, |tally, random, damage| {
        let walked = plan(random);
        let given = GivenTree::new(damage.done_to(walked, random));
        let long = tally.tree(&given, 763);
        if let Some(refusal) = damage.refusal() {
            assert_eq!(long, Err(refusal), "{given}");
        }
        let expected = long.and(Err(Refusal::SliceShort));
        for capacity in [0, 3] {
            assert_eq!(tally.tree(&given, capacity), expected, "{given}");
        }
    });
    // Of the 48 combinations half have no kind; of the others a third lacks
    // bytes, a third has too many; and so on.
    let counts = [24, 8, 8, 4, 2, 1].map(|combinations| combinations * 3 * RECORDS);
    tally.expect_refused(Refusal::OF_RECORDS, counts);
    // What has no damage is left.
    assert_eq!(tally.cases(), (24 + 8 + 8 + 4 + 2 + 1 + 1) * 3 * RECORDS);
    tally
}

#[test]
fn every_damage_to_slicing_plans() {
    let tally = every_damage("damaged records of slicing plans", 321, |random| {
        some_plan(random).walked
    });
    let left = tally.cases() / Damage::COUNT;
    assert_eq!(tally.accepted(), left / 3);
    tally.expect_refused(
        [Refusal::SliceShort, Refusal::NotSlicing],
        [2 * left / 3, 0],
    );
    tally.finish(Damage::COUNT);
}

#[test]
fn every_damage_to_plans_that_are_not_slicing() {
    let tally = every_damage("damaged records of other plans", 322, |random| {
        let plan = some_plan(random);
        let place = random.below(plan.walked.labels.len());
        plan.with_a_pinwheel(place, random.pick(&PINWHEELS))
    });
    let left = tally.cases() / Damage::COUNT;
    assert_eq!(tally.accepted(), 0);
    tally.expect_refused([Refusal::SliceShort, Refusal::NotSlicing], [0, left]);
    tally.finish(Damage::COUNT);
}

#[test]
fn records_with_one_bit_or_one_triple_changed() {
    const RECORDS: usize = 6_000;
    let name = "records of slicing plans with a change";
    let tally = Tally::of_rounds(name, 323, 0..RECORDS, |tally, random, round| {
        let n = [random.between(2, 12), random.between(2, 60), 255][round % 3];
        let mut walked = SlicingPlan::in_turn(n, round, random).walked;
        let mut record = walked.record();
        let place = random.between(1, record.len() - 1);
        record[place] ^= 1 << random.below(8);
        let _ = tally.tree(&GivenTree::new(record), 3 * n - 2);

        walked.triples[random.below(n - 1)] = random.pick(&TRIPLES);
        let _ = tally.tree(&GivenTree::new(walked.record()), 3 * n - 2);
    });
    tally.expect_often(RECORDS / 100, &Refusal::OF_RECORDS[3..]);
    tally.expect_often(RECORDS / 1_000, &[Refusal::NotSlicing]);
    assert!(tally.accepted() > RECORDS / 10, "{}", tally.accepted());
    tally.finish(2 * RECORDS);
}

/// Whatever the triples are, a pass over them must come to an end, and no byte
/// may be written elsewhere.
#[test]
fn any_triples() {
    const RECORDS: usize = 12_000;
    let name = "any triples";
    let tally = Tally::of_rounds(name, 324, 0..RECORDS, |tally, random, round| {
        let given = GivenTree::new(any_record(round, random));
        let _ = tally.tree(&given, random.pick(&[0, 5, 7, 10, 763]));
    });
    let often = [Refusal::RunMissing, Refusal::RunsLeft, Refusal::SliceShort];
    tally.expect_often(RECORDS / 100, &often);
    assert!(tally.accepted() > RECORDS / 100, "{}", tally.accepted());
    tally.finish(RECORDS);
}

#[test]
fn a_kind_that_is_not_the_bodys() {
    let name = "records of slicing plans with another kind";
    let tally = Tally::of_rounds(name, 325, 0..40, |tally, random, round| {
        let n = random.between(1, 255);
        let mut record = SlicingPlan::in_turn(n, round, random).record();
        for kind in 0..=255 {
            record[0] = kind;
            let _ = tally.tree(&GivenTree::new(&record[..]), 763);
        }
    });
    tally.expect_refused([Refusal::NoKind], [40]);
    assert!(tally.accepted() >= 40);
    tally.finish(40 * 256);
}
