//! Lists that the sheet, 000 and 001 print, and lists whose patterns can be
//! read off.

use compare::Tally;
use reference::cases::walk::Walked;
use reference::cases::worked::{BARRED, CONVERTED, LISTS};
use reference::{Condition, Pattern, Refusal};

/// The pattern at these positions.
fn at(condition: Condition, [i, j, k, l]: [u8; 4]) -> Pattern {
    Pattern {
        condition,
        i,
        j,
        k,
        l,
    }
}

#[test]
fn lists_that_the_sheet_000_and_001_print() {
    let mut tally = Tally::new("printed lists");
    let [first, second] = BARRED.map(|labels| tally.pattern(labels));
    let all = [1, 2, 3, 4];
    assert_eq!(first, Ok(Some(at(Condition::First, all))));
    assert_eq!(second, Ok(Some(at(Condition::Second, all))));

    // 000, Figure 8: "the non-Baxter permutation 24153".
    let figure_8 = tally.pattern(&[2, 4, 1, 5, 3]);
    assert_eq!(figure_8, Ok(Some(at(Condition::First, [1, 2, 3, 5]))));

    for (labels, _) in LISTS.into_iter().chain([CONVERTED]) {
        assert_eq!(tally.pattern(labels), Ok(None), "{labels:?}");
    }
    tally.finish(3 + LISTS.len() + 1);
}

#[test]
fn the_first_positions_where_there_are_several() {
    let lists: [(&[u8], Pattern); 9] = [
        // Two places for b, and two for c.
        (&[2, 4, 5, 1, 3], at(Condition::First, [1, 2, 4, 5])),
        (&[3, 5, 2, 1, 4], at(Condition::First, [1, 2, 3, 5])),
        (&[4, 1, 2, 5, 3], at(Condition::Second, [1, 2, 4, 5])),
        (&[3, 1, 4, 5, 2], at(Condition::Second, [1, 2, 3, 5])),
        // Both conditions from the same label on: j decides.
        (&[3, 1, 5, 2, 4], at(Condition::Second, [1, 2, 3, 4])),
        (&[3, 5, 1, 4, 2], at(Condition::First, [1, 2, 3, 4])),
        // A label that is below or above all others begins none.
        (&[1, 3, 5, 2, 4], at(Condition::First, [2, 3, 4, 5])),
        (&[5, 3, 1, 4, 2], at(Condition::Second, [2, 3, 4, 5])),
        // 2 4 1 3 is over before the pattern that begins with 6.
        (
            &[6, 2, 4, 1, 3, 8, 5, 7],
            at(Condition::Second, [1, 2, 6, 7]),
        ),
    ];
    let mut tally = Tally::new("lists with several patterns");
    for (labels, first) in lists {
        assert_eq!(tally.pattern(labels), Ok(Some(first)), "{labels:?}");
    }
    tally.finish(lists.len());
}

/// Barring every 2413 or 3142 shape is a trap that the sheet names.
#[test]
fn shapes_that_are_no_patterns() {
    let mut tally = Tally::new("shapes that are no patterns");
    for labels in [[4, 1, 3, 5, 2], [2, 5, 3, 1, 4]] {
        assert_eq!(tally.pattern(&labels), Ok(None), "{labels:?}");
    }
    tally.finish(2);
}

#[test]
fn rising_and_falling_lists_and_those_with_128_runs() {
    let mut tally = Tally::new("rising and falling lists");
    for n in 1..=255 {
        for Walked { labels, .. } in [Walked::rising(n), Walked::falling(n)] {
            tally.expect_pattern(&labels, Ok(None));
        }
    }
    for (mut walked, condition) in Walked::with_128_runs()
        .into_iter()
        .zip([Condition::First, Condition::Second])
    {
        tally.expect_pattern(&walked.labels, Ok(None));
        // The gaps filled from the far end: 1 3 5 .. 255 2 4 .. 254. The first
        // label is below all others; the second one begins a pattern.
        walked.labels[128..].reverse();
        let expected = at(condition, [2, 3, 129, 130]);
        tally.expect_pattern(&walked.labels, Ok(Some(expected)));
    }
    tally.finish(2 * 255 + 4);
}

/// Two causes at once, in the order 1, 6, 7, and a pattern beside them.
#[test]
fn each_refusal_comes_before_the_next_ones() {
    let many = |entry: u8, length: usize| vec![entry; length];
    let pairs = [
        (many(0, 256), Refusal::ListLength), // 1, 6 and 7
        (many(1, 256), Refusal::ListLength), // 1 and 7
        ([many(1, 255), many(0, 1)].concat(), Refusal::ListLength), // 1, 6 and 7
        (vec![], Refusal::ListLength),       // 1 alone
        (many(0, 255), Refusal::LabelOutside), // 6 and 7
        (vec![1, 1, 4], Refusal::LabelOutside), // 7 and then 6
        (vec![0, 1, 1], Refusal::LabelOutside), // 6 and then 7
        (vec![2, 4, 1, 3, 6], Refusal::LabelOutside), // a pattern and then 6
        (vec![2, 4, 1, 3, 3, 0], Refusal::LabelOutside), // a pattern, 7 and then 6
        (vec![0], Refusal::LabelOutside),    // 6 alone
        (vec![2, 4, 1, 3, 3], Refusal::LabelTwice), // a pattern and then 7
        (vec![1, 1, 3, 5, 2, 4], Refusal::LabelTwice), // 7 and then a pattern
        (many(255, 255), Refusal::LabelTwice), // 7 alone
    ];
    let mut tally = Tally::new("lists with two causes");
    for (labels, refusal) in &pairs {
        assert_eq!(tally.pattern(labels), Err(*refusal), "{labels:?}");
    }
    tally.finish(pairs.len());
}
