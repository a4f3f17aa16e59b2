//! Texts whose tidy forms or refusals can be read off the request.

use compare::Tally;
use reference::cases::walk::Walked;
use reference::cases::worked::{BARRED, LISTS};
use reference::{tidy_form, Refusal};

#[test]
fn texts_of_the_worked_plan() {
    let texts = [
        " 4,1 , 03  5 002 \n",
        "4 1 3 5 2\n",
        "4 1 3 5 2",
        "4,1,3,5,2",
        "004 001 003 005 002",
        "    4 1 3 5 2    ",
        "4   ,   1,3 ,5, 2\n",
        "04,1 003,  5  ,02",
    ];
    let mut tally = Tally::new("texts of the worked plan");
    for text in texts {
        tally.expect_tidy(text.as_bytes(), b"4 1 3 5 2\n");
    }
    tally.finish_in_threes(texts.len());
}

#[test]
fn label_lists_of_the_sheet() {
    let mut tally = Tally::new("label lists of the sheet as text");
    for (labels, _) in LISTS {
        let tidy = tidy_form(labels);
        tally.expect_tidy(&tidy, &tidy);
    }
    for labels in BARRED {
        tally.expect_refused_text(&tidy_form(labels), Refusal::BarredPattern);
    }
    tally.finish(3 * LISTS.len() + 3 * BARRED.len());
}

#[test]
fn the_longest_tidy_form_has_912_bytes() {
    let mut tally = Tally::new("255 rising labels as text, and 256");
    let tidy = tidy_form(&Walked::rising(255).labels);
    assert_eq!(tidy.len(), nenturxo::TIDY_CAPACITY);
    tally.expect_tidy(&tidy, &tidy);

    let more = [&tidy[..911], b" 256"].concat();
    tally.expect_refused_text(&more, Refusal::ListLength);
    tally.finish(3 + 3);
}

/// Each refusal of a text, for its causes alone.
const REFUSED: [(&str, Refusal); 40] = [
    (",", Refusal::TextForm),
    (" , ", Refusal::TextForm),
    (",1", Refusal::TextForm),
    ("1,", Refusal::TextForm),
    (" ,1 2", Refusal::TextForm),
    ("1 2 , \n", Refusal::TextForm),
    ("1,,2", Refusal::TextForm),
    ("1, ,2", Refusal::TextForm),
    ("0001", Refusal::TextForm),
    ("2 0001", Refusal::TextForm),
    ("1000 1", Refusal::TextForm),
    ("\n\n", Refusal::TextForm),
    ("1\n\n", Refusal::TextForm),
    ("\n1", Refusal::TextForm),
    ("1\n2", Refusal::TextForm),
    ("1\n ", Refusal::TextForm),
    ("1\t2", Refusal::TextForm),
    ("\t", Refusal::TextForm),
    ("1 2\r\n", Refusal::TextForm),
    ("\r", Refusal::TextForm),
    ("x", Refusal::TextForm),
    ("1 2x", Refusal::TextForm),
    ("-1", Refusal::TextForm),
    ("1;2", Refusal::TextForm),
    ("1.", Refusal::TextForm),
    ("1 /", Refusal::TextForm),
    ("1 :", Refusal::TextForm),
    ("1\0", Refusal::TextForm),
    ("1\u{a0}2", Refusal::TextForm),
    ("", Refusal::ListLength),
    ("\n", Refusal::ListLength),
    (" ", Refusal::ListLength),
    ("   \n", Refusal::ListLength),
    ("0", Refusal::LabelOutside),
    ("000", Refusal::LabelOutside),
    ("2", Refusal::LabelOutside),
    ("257", Refusal::LabelOutside),
    ("1 258", Refusal::LabelOutside),
    ("1, 01", Refusal::LabelTwice),
    ("2 4 001,3", Refusal::BarredPattern),
];

#[test]
fn each_refusal_for_its_cause() {
    let mut tally = Tally::new("texts with one cause");
    for (text, refusal) in REFUSED {
        tally.expect_refused_text(text.as_bytes(), refusal);
    }
    tally.finish(3 * REFUSED.len());
}

/// Two causes at once, in the order 18, 1, 6, 7, 8, 15: a text, the refusal
/// that comes first, and the length of a slice, which is too short where the
/// second is 15.
#[test]
fn each_refusal_comes_before_the_next_ones() {
    let many = |number: &str, count: usize| number.repeat(count);
    let pairs = [
        (many("0", 4), 0, Refusal::TextForm),             // 18 and 6
        (many("1,", 300), 0, Refusal::TextForm),          // 18, 1 and 7
        (many(" ", 4097), 0, Refusal::TextForm),          // 18 and 1
        (many("1 ", 2049), 0, Refusal::TextForm),         // 18, 1 and 7
        ("x".into(), 912, Refusal::TextForm),             // 18 and 1
        (" ,\n".into(), 912, Refusal::TextForm),          // 18 and 1
        ("1 2 3 9,".into(), 912, Refusal::TextForm),      // 18 and 6
        ("1 1,".into(), 912, Refusal::TextForm),          // 18 and 7
        ("2 4 1 3,".into(), 912, Refusal::TextForm),      // 18 and 8
        ("1 2,".into(), 3, Refusal::TextForm),            // 18 and 15
        (many("0 ", 256), 912, Refusal::ListLength),      // 1 and 6
        (many("999 ", 256), 912, Refusal::ListLength),    // 1 and 6
        (many("1 ", 256), 912, Refusal::ListLength),      // 1 and 7
        ("".into(), 0, Refusal::ListLength),              // 1 and 15
        (many("0 ", 255), 912, Refusal::LabelOutside),    // 6 and 7
        ("1 1 4".into(), 912, Refusal::LabelOutside),     // 6 and 7
        ("2 4 1 3 6".into(), 912, Refusal::LabelOutside), // 6 and 8
        ("1 3".into(), 0, Refusal::LabelOutside),         // 6 and 15
        ("2 4 1 3 3".into(), 912, Refusal::LabelTwice),   // 7 and 8
        ("2 2".into(), 3, Refusal::LabelTwice),           // 7 and 15
        ("3 1 4 2".into(), 7, Refusal::BarredPattern),    // 8 and 15
        ("3 4 1 2".into(), 7, Refusal::SliceShort),       // 15 alone
    ];
    let mut tally = Tally::new("texts with two causes");
    for (text, capacity, refusal) in &pairs {
        let answer = tally.tidy(text.as_bytes(), *capacity);
        assert_eq!(answer, Err(*refusal), "{text:?} into {capacity} bytes");
    }
    tally.finish(pairs.len());
}
