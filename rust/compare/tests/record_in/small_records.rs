//! Every record that is short enough.

use compare::{GivenRecord, Tally};
use reference::cases::{baxter_lists_up_to, BAXTER_NUMBERS};
use reference::Refusal;

#[test]
fn every_string_of_up_to_2_bytes() {
    let mut tally = Tally::new("strings of up to 2 bytes");
    let mut strings = vec![vec![]];
    for first in 0..=255 {
        strings.push(vec![first]);
        strings.extend((0..=255).map(|second| vec![first, second]));
    }
    for string in strings {
        let given = GivenRecord::new(string);
        for capacities in [[0; 2], [3; 2]] {
            let _ = tally.record_in(&given, capacities);
        }
    }
    // Those of 1, 2 and 3 rooms.
    let baxter = baxter_lists_up_to(3);
    assert_eq!(tally.accepted(), baxter);
    assert_eq!(tally.refused(Refusal::SliceShort), baxter);
    tally.finish(2 * (1 + 256 + 256 * 256));
}

#[test]
fn every_string_of_3_bytes_whose_kind_fixes_another_length() {
    // Those with kind 4 to 6 are among the bodies of up to 6 rooms.
    let mut tally = Tally::new("strings of 3 bytes, another length");
    for (kinds, refusal) in [
        (0..=0, Refusal::NoKind),
        (1..=3, Refusal::BytesAfter),
        (7..=255, Refusal::BodyShort),
    ] {
        let strings = kinds.flat_map(|kind| {
            (0..=u16::MAX).map(move |body| {
                let [second, third] = body.to_be_bytes();
                [kind, second, third]
            })
        });
        tally.expect_refused_records(strings, refusal);
    }
    tally.finish(253 << 16);
}

#[test]
fn every_body_of_up_to_6_rooms() {
    let mut tally = Tally::new("bodies of up to 6 rooms");
    for n in 1..=6u8 {
        let length = [0, 1, 1, 2, 2, 2][usize::from(n) - 1];
        let rooms = usize::from(n);
        for body in 0..1u32 << (8 * length) {
            let mut record = vec![n];
            record.extend(&body.to_be_bytes()[4 - length..]);
            let given = GivenRecord::new(record);
            let _ = tally.record_in(&given, [rooms + 1; 2]);
            let _ = tally.record_in(&given, [rooms, rooms - 1]);
            let _ = tally.record_in(&given, [rooms - 1, rooms]);
        }
    }
    let baxter = baxter_lists_up_to(6);
    assert_eq!(tally.accepted(), baxter);
    assert_eq!(tally.refused(Refusal::SliceShort), 2 * baxter);
    tally.finish(3 * (1 + 2 * 256 + 3 * 65536));
}

#[test]
fn every_code_of_7_rooms() {
    let mut tally = Tally::new("codes of 7 rooms");
    for code in 0..1u32 << 18 {
        // The 18 bits stand at the top of three bytes.
        let [_, first, second, third] = (code << 6).to_be_bytes();
        let _ = tally.record_in(&GivenRecord::new([7, first, second, third]), [7; 2]);
    }
    assert_eq!(tally.accepted(), BAXTER_NUMBERS[6]);
    assert_eq!(tally.refused(Refusal::SpareBit), 0);
    tally.finish(1 << 18);
}
