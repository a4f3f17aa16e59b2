//! Damaged records: whatever the positions, the record's number comes first.

use compare::damage::Damage;
use compare::{each_times, AskedRecord, Tally};
use reference::Refusal;

#[test]
fn every_damage_with_all_kinds_of_positions() {
    const RECORDS: usize = 200;
    let name = "questions about damaged records";
    let damages = each_times(Damage::all(), RECORDS);
    let tally = Tally::of_rounds(name, 111, damages, |tally, random, damage| {
        let given = AskedRecord::new(damage.record(random));
        let n = given.input[0];
        let after = n.checked_add(1).unwrap_or(0);
        let one = u8::try_from(random.between(1, 255)).expect("a byte");
        for (first, second) in [(0, 0), (1, 1), (n, n), (1, 2), (n, 1), (after, 1), (1, one)] {
            let answer = tally.question(&given, first, second);
            if let Some(refusal) = damage.refusal() {
                assert_eq!(answer, Err(refusal), "{given}");
            }
        }
    });
    assert!(tally.accepted() >= 2 * RECORDS);
    assert!(tally.refused(Refusal::PositionOutside) >= 2 * RECORDS);
    assert!(tally.refused(Refusal::PositionsEqual) >= 2 * RECORDS);
    tally.expect_refused([Refusal::RunsLeft], [7 * RECORDS]);
    tally.finish(Damage::COUNT * 7 * RECORDS);
}

#[test]
fn records_of_another_length() {
    let mut tally = Tally::new("questions about records of another length");
    let record = [0x05, 0x31, 0x70];
    // Among these are 256 and 65536 more than the length it should have.
    for added in [1, 2, 255, 256, 257, 65_535, 65_536, 65_537] {
        let given = AskedRecord::new([&record[..], &vec![0; added]].concat());
        tally.expect_answer(&given, 1, 2, Err(Refusal::BytesAfter));
    }
    for length in [1, 2] {
        let given = AskedRecord::new(&record[..length]);
        tally.expect_answer(&given, 1, 2, Err(Refusal::BodyShort));
    }
    tally.expect_answer(&AskedRecord::new([]), 1, 2, Err(Refusal::NoKind));
    tally.finish(8 + 2 + 1);
}
