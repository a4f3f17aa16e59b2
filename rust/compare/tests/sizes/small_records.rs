//! Every record that is short enough, be it a plan's or not, with sizes that
//! suit its kind.

use crate::help::at_0;
use compare::Tally;
use reference::cases::sizes::SizedRecord;
use reference::cases::{baxter_lists_up_to, every_code, BAXTER_NUMBERS};
use reference::{record_of, Refusal};

/// As many sizes as rooms: 1, 2, 3, 1, and so on.
fn sized(record: impl Into<Vec<u8>>, n: usize) -> SizedRecord {
    let widths: Vec<u16> = [1, 2, 3].into_iter().cycle().take(n).collect();
    let heights: Vec<u16> = widths.iter().rev().copied().collect();
    SizedRecord::new(record, widths, heights)
}

/// Compares a record in all three calls. Placed at 0 is one room alone.
fn compare_three(tally: &mut Tally, sized: &SizedRecord, n: usize) {
    let corners = tally.lowest_corners(sized, [n + 1, n]);
    let slack = tally.slack(sized, [4; 2]);
    assert_eq!(corners.map(drop), slack.map(drop), "{sized:?}");
    let placing = tally.placing_in(sized, &at_0(n));
    let broken = n > 1 && corners.is_ok();
    let expected = match broken {
        true => Err(Refusal::RelationBroken),
        false => corners.map(drop),
    };
    assert_eq!(placing, expected, "{sized:?}");
}

#[test]
fn every_string_of_up_to_2_bytes() {
    let mut tally = Tally::new("strings of up to 2 bytes, with sizes");
    let mut strings = vec![vec![]];
    for first in 0..=255 {
        strings.push(vec![first]);
        strings.extend((0..=255).map(|second| vec![first, second]));
    }
    for string in strings {
        let n = string.first().copied().map_or(0, usize::from);
        compare_three(&mut tally, &sized(string, n), n);
    }
    // Those of 1, 2 and 3 rooms.
    let plans = baxter_lists_up_to(3);
    assert_eq!(tally.accepted(), 2 * plans + 1);
    tally.expect_refused([Refusal::RelationBroken], [plans - 1]);
    tally.finish(3 * (1 + 256 + 256 * 256));
}

#[test]
fn every_body_of_4_and_5_rooms() {
    let mut tally = Tally::new("bodies of 4 and 5 rooms, with sizes");
    for n in 4..=5u8 {
        for body in 0..=u16::MAX {
            let [first, second] = body.to_be_bytes();
            let n = usize::from(n);
            compare_three(&mut tally, &sized([n as u8, first, second], n), n);
        }
    }
    let plans = BAXTER_NUMBERS[3] + BAXTER_NUMBERS[4];
    assert_eq!(tally.accepted(), 2 * plans);
    tally.expect_refused([Refusal::RelationBroken], [plans]);
    tally.finish(3 * 2 * 65_536);
}

#[test]
fn every_code_of_6_rooms() {
    let mut tally = Tally::new("codes of 6 rooms, with sizes");
    for code in every_code(6) {
        compare_three(&mut tally, &sized(record_of(6, &code), 6), 6);
    }
    assert_eq!(tally.accepted(), 2 * BAXTER_NUMBERS[5]);
    tally.expect_refused([Refusal::RelationBroken], [BAXTER_NUMBERS[5]]);
    tally.finish(3 << 15);
}
