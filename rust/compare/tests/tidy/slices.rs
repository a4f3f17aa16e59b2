//! Slices of every length that matters. That nothing around the slices
//! changes, and nothing in them on a refusal, is part of every comparison.

use compare::{report, Tally};
use reference::cases::text::typed_text;
use reference::cases::walk::random_list;
use reference::{tidy_form, Refusal};

#[test]
fn slices_of_every_length_near_the_needed_one() {
    let name = "slices one byte shorter or longer";
    let tally = Tally::of_rounds(name, 231, 1..=255, |tally, random, n| {
        let labels = random_list(n, random).labels;
        let (text, needed) = (typed_text(&labels, random), tidy_form(&labels).len());
        for capacity in [
            0,
            1,
            needed - 2,
            needed - 1,
            needed,
            needed + 1,
            needed + 2,
            912,
            2000,
        ] {
            tally.expect_tidy_length(&text, needed, capacity);
        }
    });
    // With 255 labels 912 is the needed length, and one more is enough too.
    assert_eq!(tally.accepted(), 255 * 5);
    tally.expect_refused([Refusal::SliceShort], [255 * 4]);
    tally.finish(255 * 9);
}

#[test]
fn slices_of_every_length_from_0_to_916() {
    let name = "slices of 0 to 916 bytes";
    let counts = [1, 9, 10, 40, 99, 100, 101, 255];
    let tally = Tally::of_rounds(name, 232, counts, |tally, random, n| {
        let labels = random_list(n, random).labels;
        let (text, needed) = (typed_text(&labels, random), tidy_form(&labels).len());
        for capacity in 0..=916 {
            tally.expect_tidy_length(&text, needed, capacity);
        }
    });
    tally.finish(counts.len() * 917);
}

#[test]
fn refused_texts_leave_slices_of_every_length_from_0_to_916() {
    let rising = tidy_form(&(1..=255).collect::<Vec<u8>>());
    let with = |end: &[u8]| [&rising[..911 - 4], end].concat();
    let refused = [
        (b"".to_vec(), Refusal::ListLength),
        (b"1,".to_vec(), Refusal::TextForm),
        (b"3".to_vec(), Refusal::LabelOutside),
        (b"1 1".to_vec(), Refusal::LabelTwice),
        (b"2 4 1 3".to_vec(), Refusal::BarredPattern),
        (with(b" 255,"), Refusal::TextForm),
        (with(b" 255 256"), Refusal::ListLength),
        (with(b" 256"), Refusal::LabelOutside),
        (with(b" 254"), Refusal::LabelTwice),
        ([b"2 4 1 3 ", &rising[8..]].concat(), Refusal::BarredPattern),
    ];
    let name = "refused, with slices of 0 to 916 bytes";
    Tally::refused_at_every_length(name, &refused, 916, |tally, text, capacity| {
        tally.tidy(text, capacity)
    });
}

#[test]
fn slices_that_are_no_part_of_anything() {
    let refusals = [
        (&b""[..], nenturxo::Refusal::LIST_LENGTH),
        (b",", nenturxo::Refusal::TEXT_FORM),
        (b"1", nenturxo::Refusal::SLICE_SHORT),
        (b"2", nenturxo::Refusal::LABEL_OUTSIDE),
    ];
    for (text, refusal) in refusals {
        assert_eq!(nenturxo::tidy(text, &mut []), Err(refusal), "{text:?}");
    }
    report(format_args!("{} texts with empty slices", refusals.len()));
}
