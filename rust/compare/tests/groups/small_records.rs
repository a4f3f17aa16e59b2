//! Every record that is short enough, be it a plan's or not, with some groups.

use crate::help::groups_of;
use compare::{GivenRecord, Groups, Tally};
use reference::cases::{baxter_lists_up_to, every_code, BAXTER_NUMBERS};
use reference::record_of;

/// Groups for plans of up to `n` rooms: the first and the last position, and the
/// odd ones and the last.
fn some_groups(n: usize) -> [Groups; 2] {
    let odd: Vec<usize> = (1..n).step_by(2).collect();
    [groups_of(&[1], &[n]), groups_of(&[n], &odd)]
}

#[test]
fn every_string_of_up_to_2_bytes() {
    let mut tally = Tally::new("strings of up to 2 bytes, with groups");
    let mut strings = vec![vec![]];
    for first in 0..=255 {
        strings.push(vec![first]);
        strings.extend((0..=255).map(|second| vec![first, second]));
    }
    for string in strings {
        let n = string.first().copied().map_or(1, usize::from).max(1);
        let given = GivenRecord::new(string);
        for groups in some_groups(n) {
            let _ = tally.groups(&given, &groups);
        }
    }
    // Those of 2 and 3 rooms: one room alone cannot be in two groups.
    assert_eq!(tally.accepted(), 2 * (baxter_lists_up_to(3) - 1));
    tally.finish(2 * (1 + 256 + 256 * 256));
}

#[test]
fn every_body_of_4_and_5_rooms() {
    let mut tally = Tally::new("bodies of 4 and 5 rooms, with groups");
    for n in 4..=5usize {
        for body in 0..=u16::MAX {
            let [first, second] = body.to_be_bytes();
            let given = GivenRecord::new([n as u8, first, second]);
            for groups in some_groups(n) {
                let _ = tally.groups(&given, &groups);
            }
        }
    }
    let plans = BAXTER_NUMBERS[3] + BAXTER_NUMBERS[4];
    assert_eq!(tally.accepted(), 2 * plans);
    tally.finish(2 * 2 * 65_536);
}

#[test]
fn every_code_of_6_rooms() {
    let mut tally = Tally::new("codes of 6 rooms, with groups");
    for code in every_code(6) {
        let given = GivenRecord::new(record_of(6, &code));
        for groups in some_groups(6) {
            let _ = tally.groups(&given, &groups);
        }
    }
    assert_eq!(tally.accepted(), 2 * BAXTER_NUMBERS[5]);
    tally.finish(2 << 15);
}
