//! Records with damage: each refusal for its own cause, and in the order 9, 10,
//! 11, 14, 12, 13, 16, 27, 17 where there are several.

use crate::help::{from_to, groups_of, Answers};
use compare::damage::{leaves_spare_bits, Damage};
use compare::{each_times, GivenRecord, Groups, Tally};
use reference::cases::groups::some_groups;
use reference::cases::walk::{any_record, biased_list, list_in_turn};
use reference::cases::Random;
use reference::{plan_of, Refusal, TRIPLES};

/// What is wrong with the groups besides: nothing, a position outside, no
/// position, or one in both.
const FAULTS: [Option<Refusal>; 4] = [
    None,
    Some(Refusal::PositionOutside),
    Some(Refusal::EmptyGroup),
    Some(Refusal::PositionsEqual),
];

/// Puts a fault into two groups of a plan of `n` rooms.
fn put(fault: Option<Refusal>, groups: &mut Groups, n: usize, random: &mut Random) {
    let which = random.below(2);
    match fault {
        Some(Refusal::PositionOutside) => {
            let place = random.between(n, 255);
            groups[which][place / 8] |= 1 << (place % 8);
        }
        Some(Refusal::EmptyGroup) => groups[which] = [0; 32],
        Some(_) => {
            for (byte, other) in groups[1 - which].into_iter().enumerate() {
                groups[which][byte] |= other;
            }
        }
        None => {}
    }
}

/// A count of rooms whose record has spare bits, as many as damage needs.
fn some_count(random: &mut Random) -> usize {
    let n = random.pick(&[6, 7, 12, 40, 100, 251, 255]);
    assert!(leaves_spare_bits(n));
    n
}

#[test]
fn every_damage_with_every_fault_of_the_groups() {
    const RECORDS: usize = 40;
    let name = "groups of damaged records";
    let damages = each_times(Damage::all(), RECORDS);
    let tally = Tally::of_rounds(name, 631, damages, |tally, random, damage| {
        let n = some_count(random);
        let walked = biased_list(n, random);
        let plan = plan_of(&walked.record()).expect("walks are accepted");
        let given = GivenRecord::new(damage.done_to(walked, random));
        for fault in FAULTS {
            let mut groups = some_groups(&plan, random);
            put(fault, &mut groups, n, random);
            let refusal = damage.refusal().or(fault);
            let answer = tally.groups(&given, &groups);
            assert_eq!(answer.err(), refusal, "{given}");
        }
    });
    // Of the 48 combinations half have no kind; of the others a third lacks
    // bytes, a third has too many; and so on. One has no damage.
    let counts = [24, 8, 8, 4, 2, 1].map(|combinations| combinations * 4 * RECORDS);
    tally.expect_refused(Refusal::OF_RECORDS, counts);
    let [.., outside, empty, shared] = Refusal::OF_GROUPS;
    tally.expect_refused([outside, empty, shared], [RECORDS; 3]);
    assert_eq!(tally.accepted(), RECORDS);
    tally.finish(Damage::COUNT * 4 * RECORDS);
}

#[test]
fn records_with_one_bit_or_one_triple_changed() {
    const RECORDS: usize = 4_000;
    let name = "groups of records with a change";
    let mut answers = Answers::default();
    let tally = Tally::of_rounds(name, 632, 0..RECORDS, |tally, random, round| {
        let n = [random.between(2, 12), random.between(2, 60), 255][round % 3];
        let mut walked = list_in_turn(n, round, random);
        let mut record = walked.record();
        // Groups of the plan as it was.
        let groups = some_groups(&plan_of(&record).expect("walks are accepted"), random);
        let place = random.between(1, record.len() - 1);
        record[place] ^= 1 << random.below(8);
        walked.triples[random.below(n - 1)] = random.pick(&TRIPLES);
        for record in [record, walked.record()] {
            if let Ok(side) = tally.groups(&GivenRecord::new(record), &groups) {
                answers.count(side);
            }
        }
    });
    answers.expect_often(RECORDS / 100);
    tally.expect_often(RECORDS / 100, &Refusal::OF_RECORDS[3..]);
    assert!(tally.accepted() > RECORDS / 8, "{}", tally.accepted());
    tally.finish(2 * RECORDS);
}

/// Whatever the triples are, a walk along them must come to an end.
#[test]
fn any_triples() {
    const RECORDS: usize = 12_000;
    let name = "groups with any triples";
    let tally = Tally::of_rounds(name, 633, 0..RECORDS, |tally, random, round| {
        let record = any_record(round, random);
        let n = usize::from(record[0]);
        let middle = random.between(1, n.max(2) - 1);
        let groups = [(1, middle), (middle + 1, n.max(2))];
        let groups = groups.map(|(first, last)| from_to(first, last));
        let _ = tally.groups(&GivenRecord::new(record), &groups);
    });
    tally.expect_often(RECORDS / 10, &[Refusal::RunMissing, Refusal::RunsLeft]);
    assert!(tally.accepted() > RECORDS / 20, "{}", tally.accepted());
    tally.finish(RECORDS);
}

#[test]
fn a_kind_that_is_not_the_bodys() {
    let name = "groups of records with another kind";
    let tally = Tally::of_rounds(name, 634, 0..20, |tally, random, round| {
        let n = random.between(2, 255);
        let mut record = list_in_turn(n, round, random).record();
        let groups = groups_of(&[1], &[n]);
        for kind in 0..=255 {
            record[0] = kind;
            let _ = tally.groups(&GivenRecord::new(&record[..]), &groups);
        }
    });
    tally.expect_refused([Refusal::NoKind], [20]);
    assert!(tally.accepted() >= 20);
    tally.finish(20 * 256);
}

#[test]
fn records_of_every_length_but_their_own() {
    let counts = [1, 2, 3, 4, 5, 6, 11, 12, 86, 171, 254, 255];
    let name = "groups of records of another length";
    let tally = Tally::of_rounds(name, 635, counts, |tally, random, n| {
        let record = list_in_turn(n, n, random).record();
        let groups = groups_of(&[1], &[n]);
        let mut expect = |record: &[u8], refusal| {
            tally.expect_groups(&GivenRecord::new(record), &groups, Err(refusal));
        };
        // Among these are 256 and 65536 more than the length it should have.
        for added in [1, 2, 255, 256, 257, 65_535, 65_536, 65_537] {
            let longer = [&record[..], &vec![0; added]].concat();
            expect(&longer, Refusal::BytesAfter);
        }
        for length in 1..record.len() {
            expect(&record[..length], Refusal::BodyShort);
        }
        expect(&[], Refusal::NoKind);
    });
    tally.finish(12 * 9);
}
