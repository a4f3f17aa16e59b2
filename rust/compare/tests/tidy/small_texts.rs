//! Every short text over a small alphabet, and every byte.

use compare::Tally;
use reference::cases::text::every_text;
use reference::Refusal;

/// Texts of up to 6 bytes of the alphabet.
const TEXTS: usize = 299_593;

#[test]
fn every_text_of_up_to_6_bytes() {
    let mut tally = Tally::new("texts of up to 6 bytes");
    for text in (0..=6).flat_map(every_text) {
        for capacity in 0..=5 {
            let _ = tally.tidy(&text, capacity);
        }
    }
    // Counted by hand: 77 texts list 1, which takes 2 bytes, and 185 each list
    // 1 2 and 2 1, which takes 4. The texts without a number are of up to 6
    // spaces, or of up to 5 and a newline.
    assert_eq!(tally.accepted(), 77 * 4 + 2 * 185 * 2);
    tally.expect_refused(
        [Refusal::SliceShort, Refusal::ListLength],
        [77 * 2 + 2 * 185 * 4, 6 * (7 + 6)],
    );
    tally.expect_often(10_000, &[Refusal::TextForm, Refusal::LabelOutside]);
    tally.expect_often(2_000, &[Refusal::LabelTwice]);
    tally.finish(6 * TEXTS);
}

#[test]
fn every_byte_at_every_place() {
    let mut tally = Tally::new("every byte in and around a text");
    let texts: [&[u8]; 4] = [b"2 1", b" 03,1 2 \n", b"", b"  "];
    for text in texts {
        for byte in 0..=255 {
            for place in 0..=text.len() {
                let mut added = text.to_vec();
                added.insert(place, byte);
                let _ = tally.tidy(&added, 8);
            }
            for place in 0..text.len() {
                let mut changed = text.to_vec();
                changed[place] = byte;
                let _ = tally.tidy(&changed, 8);
            }
        }
    }
    // Of 256 bytes 243 are not of the form.
    let places = texts.map(|text| 2 * text.len() + 1).iter().sum::<usize>();
    assert!(tally.refused(Refusal::TextForm) >= 243 * places);
    assert!(tally.accepted() > 30, "{}", tally.accepted());
    tally.finish(256 * places);
}
