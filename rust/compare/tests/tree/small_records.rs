//! Every record that is short enough, be it a plan's or not.

use compare::{GivenTree, Tally};
use reference::cases::every_code;
use reference::cases::slicing::TABLE_1;
use reference::{record_of, Refusal};

#[test]
fn every_string_of_up_to_2_bytes() {
    let mut tally = Tally::new("strings of up to 2 bytes");
    let mut strings = vec![vec![]];
    for first in 0..=255 {
        strings.push(vec![first]);
        strings.extend((0..=255).map(|second| vec![first, second]));
    }
    for string in strings {
        let given = GivenTree::new(string);
        for capacity in [0, 7] {
            let _ = tally.tree(&given, capacity);
        }
    }
    // The plans of 1, 2 and 3 rooms are all slicing.
    let plans = 1 + 2 + 6;
    assert_eq!(tally.accepted(), plans);
    tally.expect_refused([Refusal::SliceShort, Refusal::NotSlicing], [plans, 0]);
    tally.finish(2 * (1 + 256 + 256 * 256));
}

#[test]
fn every_body_of_4_to_6_rooms() {
    let mut tally = Tally::new("bodies of 4 to 6 rooms");
    for n in 4..=6u8 {
        // At most 3n − 2 bytes, and at least n + 2.
        let needed = usize::from(n);
        for body in 0..=u16::MAX {
            let [first, second] = body.to_be_bytes();
            let given = GivenTree::new([n, first, second]);
            let _ = tally.tree(&given, 3 * needed - 2);
            let _ = tally.tree(&given, needed + 1);
        }
    }
    let slicing = TABLE_1[3].0 + TABLE_1[4].0 + TABLE_1[5].0;
    let mosaic = TABLE_1[3].1 + TABLE_1[4].1 + TABLE_1[5].1;
    assert_eq!(tally.accepted(), slicing);
    tally.expect_refused(
        [Refusal::SliceShort, Refusal::NotSlicing],
        [slicing, 2 * (mosaic - slicing)],
    );
    tally.finish(2 * 3 * 65_536);
}

#[test]
fn every_code_of_7_rooms() {
    let mut tally = Tally::new("codes of 7 rooms");
    for code in every_code(7) {
        let given = GivenTree::new(record_of(7, &code));
        let _ = tally.tree(&given, 19);
        // Around the length of an accepted one.
        if let Ok(bytes) = &given.answer {
            tally.expect_tree_length(&given, bytes.len(), bytes.len());
            tally.expect_tree_length(&given, bytes.len(), bytes.len() - 1);
        }
    }
    let (slicing, mosaic) = TABLE_1[6];
    assert_eq!(tally.accepted(), 2 * slicing);
    tally.expect_refused(
        [Refusal::SliceShort, Refusal::NotSlicing],
        [slicing, mosaic - slicing],
    );
    tally.finish((1 << 18) + 2 * slicing);
}
