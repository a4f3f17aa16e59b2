//! Lists of every length that matters.

use crate::help::Answer;
use compare::{report, Tally};
use reference::Refusal;

/// Compares a list whose answer is known.
fn expect(tally: &mut Tally, labels: &[u8], expected: Answer) {
    assert_eq!(tally.pattern(labels), expected, "{labels:?}");
}

#[test]
fn empty_lists_are_1() {
    let mut tally = Tally::new("empty lists");
    expect(&mut tally, &[], Err(Refusal::ListLength));
    // Also where the slice is no part of anything.
    let answer = nenturxo::pattern(&[]);
    assert_eq!(answer, Err(nenturxo::Refusal::LIST_LENGTH));
    tally.finish(1);
}

#[test]
fn lists_of_over_255_entries_are_1_whatever_they_hold() {
    let mut tally = Tally::new("lists of over 255 entries");
    // Among these are 256 and 65536 more than a length that would be accepted.
    let lengths = [
        256, 257, 258, 260, 261, 300, 511, 512, 517, 1000, 65_535, 65_536, 65_540, 65_541,
    ];
    for length in lengths {
        let rising: Vec<u8> = (1..=255).cycle().take(length).collect();
        let modulo: Vec<u8> = (0..=255).cycle().take(length).collect();
        let barred: Vec<u8> = [2, 4, 1, 3].into_iter().cycle().take(length).collect();
        for labels in [rising, modulo, barred, vec![0; length], vec![1; length]] {
            expect(&mut tally, &labels, Err(Refusal::ListLength));
        }
    }
    tally.finish(lengths.len() * 5);
}

#[test]
fn lists_of_1_to_255_entries_are_not_1() {
    let mut tally = Tally::new("lists of 1 to 255 entries");
    for n in 1..=255u8 {
        let length = usize::from(n);
        let rising: Vec<u8> = (1..=n).collect();
        tally.expect_pattern(&rising, Ok(None));
        expect(&mut tally, &vec![0; length], Err(Refusal::LabelOutside));
        if n > 1 {
            expect(&mut tally, &vec![n; length], Err(Refusal::LabelTwice));
        }
        if n < 255 {
            let above = vec![n + 1; length];
            expect(&mut tally, &above, Err(Refusal::LabelOutside));
        }
    }
    tally.expect_refused(Refusal::OF_PATTERNS, [0, 255 + 254, 254]);
    tally.finish(2 * 255 + 2 * 254);
}

#[test]
fn slices_that_are_no_part_of_anything() {
    let refusals = [
        (&[][..], nenturxo::Refusal::LIST_LENGTH),
        (&[0], nenturxo::Refusal::LABEL_OUTSIDE),
        (&[2], nenturxo::Refusal::LABEL_OUTSIDE),
        (&[1, 1], nenturxo::Refusal::LABEL_TWICE),
    ];
    for (labels, refusal) in refusals {
        assert_eq!(nenturxo::pattern(labels), Err(refusal), "{labels:?}");
    }
    assert_eq!(nenturxo::pattern(&[1]), Ok(None));
    report(format_args!("{} lists by themselves", refusals.len() + 1));
}
