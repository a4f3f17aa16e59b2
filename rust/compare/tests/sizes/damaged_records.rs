//! Records with damage: each refusal for its own cause, and in the order 9, 10,
//! 11, 14, 12, 13, 24, 25, 26 or 15 where there are several.

use crate::help::{expect_refused, REFUSED};
use compare::damage::{leaves_spare_bits, Damage};
use compare::{each_times, Tally};
use reference::cases::sizes::{some_sizes, Placing, SizedRecord};
use reference::cases::walk::{any_record, biased_list, list_in_turn};
use reference::cases::Random;
use reference::{Refusal, TRIPLES};

/// What is wrong with the lists besides: nothing, a length, or a size of 0.
#[derive(Clone, Copy, Debug)]
enum Lists {
    Suited,
    Length,
    Zero,
}

/// Sizes for `n` rooms with or without a fault.
fn some_lists(n: usize, lists: Lists, random: &mut Random) -> [Vec<u16>; 2] {
    let mut sizes = [some_sizes(n, random), some_sizes(n, random)];
    let which = random.below(2);
    match lists {
        Lists::Suited => {}
        Lists::Length => sizes[which].truncate(random.below(n)),
        Lists::Zero => sizes[which][random.below(n)] = 0,
    }
    sizes
}

/// A count of rooms whose record has spare bits, as many as damage needs.
fn some_count(random: &mut Random) -> usize {
    let n = random.pick(&[6, 7, 12, 40, 100, 251, 255]);
    assert!(leaves_spare_bits(n));
    n
}

#[test]
fn every_damage_with_every_fault_of_the_lists() {
    const RECORDS: usize = 12;
    let name = "damaged records with sizes";
    let damages = each_times(Damage::all(), RECORDS);
    let tally = Tally::of_rounds(name, 591, damages, |tally, random, damage| {
        let n = some_count(random);
        let record = damage.done_to(biased_list(n, random), random);
        for lists in [Lists::Suited, Lists::Length, Lists::Zero] {
            let [widths, heights] = some_lists(n, lists, random);
            let sized = SizedRecord::new(&record[..], widths, heights);
            let refusal = damage.refusal().or(match lists {
                Lists::Suited => None,
                Lists::Length => Some(Refusal::LengthDiffers),
                Lists::Zero => Some(Refusal::ZeroSize),
            });
            if let Some(refusal) = refusal {
                expect_refused(tally, &sized, n, refusal);
            } else {
                let lowest = tally.expect_corners(&sized);
                tally.expect_placing(&sized, &lowest, Ok(()));
            }
        }
    });
    // Of the 48 combinations half have no kind; of the others a third lacks
    // bytes, a third has too many; and so on. One has no damage.
    let counts = [24, 8, 8, 4, 2, 1].map(|combinations| combinations * 3 * REFUSED * RECORDS);
    tally.expect_refused(Refusal::OF_RECORDS, counts);
    let lists = [Refusal::LengthDiffers, Refusal::ZeroSize];
    tally.expect_refused(lists, [REFUSED * RECORDS; 2]);
    assert_eq!(tally.accepted(), 3 * RECORDS);
    tally.finish(RECORDS * (47 * 3 * REFUSED + 2 * REFUSED + 4));
}

#[test]
fn records_with_one_bit_or_one_triple_changed() {
    const RECORDS: usize = 3_000;
    let name = "records with sizes and a change";
    let tally = Tally::of_rounds(name, 592, 0..RECORDS, |tally, random, round| {
        let n = [random.between(2, 12), random.between(2, 60), 255][round % 3];
        let mut walked = list_in_turn(n, round, random);
        let mut sized = SizedRecord::some(&walked, random);
        // Corners that honour the relations of the plan as it was.
        let placing = Placing::some(&sized, random);
        let place = random.between(1, sized.record.len() - 1);
        sized.record[place] ^= 1 << random.below(8);
        compare_three(tally, &sized, &placing);
        walked.triples[random.below(n - 1)] = random.pick(&TRIPLES);
        sized.record = walked.record();
        compare_three(tally, &sized, &placing);
    });
    tally.expect_often(RECORDS / 100, &Refusal::OF_RECORDS[3..]);
    tally.expect_often(RECORDS / 100, &[Refusal::RelationBroken]);
    assert!(tally.accepted() > RECORDS / 4, "{}", tally.accepted());
    tally.finish(6 * RECORDS);
}

/// Compares a record in all three calls.
fn compare_three(tally: &mut Tally, sized: &SizedRecord, placing: &Placing) {
    let n = sized.widths.len();
    let corners = tally.lowest_corners(sized, [n; 2]);
    let slack = tally.slack(sized, [n as u32; 2]);
    assert_eq!(corners.map(drop), slack.map(drop), "{sized:?}");
    let placing = tally.placing_in(sized, placing);
    assert_eq!(
        corners.is_err(),
        placing.is_err_and(is_no_relation),
        "{sized:?}"
    );
}

/// Whether a refusal is for anything but a relation.
fn is_no_relation(refusal: Refusal) -> bool {
    refusal != Refusal::RelationBroken
}

/// Whatever the triples are, a pass over them must come to an end, and no entry
/// may be written elsewhere.
#[test]
fn any_triples() {
    const RECORDS: usize = 6_000;
    let name = "any triples, with sizes";
    let tally = Tally::of_rounds(name, 593, 0..RECORDS, |tally, random, round| {
        let record = any_record(round, random);
        let n = usize::from(record[0]);
        let (widths, heights) = (some_sizes(n, random), some_sizes(n, random));
        let sized = SizedRecord::new(record, widths, heights);
        compare_three(tally, &sized, &Placing::staircase(&sized));
    });
    tally.expect_often(RECORDS / 10, &[Refusal::RunMissing, Refusal::RunsLeft]);
    assert!(tally.accepted() > RECORDS / 10, "{}", tally.accepted());
    // The rooms of every plan may stand in a staircase.
    tally.expect_refused([Refusal::RelationBroken], [0]);
    tally.finish(3 * RECORDS);
}

#[test]
fn a_kind_that_is_not_the_bodys() {
    let name = "records with sizes and another kind";
    let tally = Tally::of_rounds(name, 594, 0..20, |tally, random, round| {
        let n = random.between(1, 255);
        let mut sized = SizedRecord::some(&list_in_turn(n, round, random), random);
        let placing = Placing::some(&sized, random);
        for kind in 0..=255 {
            sized.record[0] = kind;
            compare_three(tally, &sized, &placing);
        }
    });
    // A kind with the same length of the body may be accepted by chance but
    // for the lengths of the lists.
    tally.expect_refused([Refusal::NoKind], [3 * 20]);
    assert_eq!(tally.accepted(), 3 * 20);
    tally.finish(3 * 20 * 256);
}
