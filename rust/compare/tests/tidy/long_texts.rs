//! Texts of about 4,096 bytes, and of more.

use compare::Tally;
use reference::cases::text::mixed_text;
use reference::cases::walk::random_list;
use reference::cases::Random;
use reference::{tidy_form, Refusal};

/// Lengths about the greatest, and whether a text may have them.
const LENGTHS: [(usize, bool); 7] = [
    (4095, true),
    (4096, true),
    (4097, false),
    (4098, false),
    // 4,096 and 65,536 more than a length that is fine.
    (8192, false),
    (65_537, false),
    (69_632, false),
];

/// The text with spaces in front, at its end and between two numbers, until it
/// has so many bytes.
fn stretched(text: &[u8], length: usize, random: &mut Random) -> Vec<u8> {
    let mut text = text.to_vec();
    while text.len() < length {
        let spaces = random.between(1, length - text.len());
        let line = text.strip_suffix(b"\n").unwrap_or(&text).len();
        let gap = text.iter().position(|byte| b" ,".contains(byte));
        let place = random.pick(&[0, line, gap.unwrap_or(0)]);
        drop(text.splice(place..place, vec![b' '; spaces]));
    }
    text
}

/// A text of so many bytes that lists a random Baxter list, and its tidy form.
fn long_text(n: usize, length: usize, random: &mut Random) -> (Vec<u8>, Vec<u8>) {
    let labels = random_list(n, random).labels;
    let text = mixed_text(&labels, random);
    (stretched(&text, length, random), tidy_form(&labels))
}

#[test]
fn a_text_of_over_4096_bytes_is_18_whatever_it_holds() {
    let name = "texts of about 4,096 bytes";
    let counts = [1, 2, 5, 40, 128, 254, 255];
    let tally = Tally::of_rounds(name, 221, counts, |tally, random, n| {
        for (length, is_fine) in LENGTHS {
            for _ in 0..8 {
                let (text, tidy) = long_text(n, length, random);
                assert_eq!(text.len(), length);
                if is_fine {
                    tally.expect_tidy(&text, &tidy);
                } else {
                    tally.expect_refused_text(&text, Refusal::TextForm);
                }
            }
        }
    });
    // Two of the seven lengths are fine.
    assert_eq!(tally.accepted(), 2 * 2 * 8 * counts.len());
    tally.expect_refused([Refusal::TextForm], [3 * 5 * 8 * counts.len()]);
    tally.finish(3 * 7 * 8 * counts.len());
}

#[test]
fn a_broken_byte_anywhere_in_a_long_text_is_18() {
    let name = "texts of about 4,096 bytes with a broken byte";
    let tally = Tally::of_rounds(name, 222, LENGTHS, |tally, random, (length, _)| {
        let (text, _) = long_text(200, length, random);
        let ends = [0, 1, 63, 64, 65, length - 2, length - 1];
        let anywhere = (0..50).map(|_| random.below(length));
        let places: Vec<usize> = ends.into_iter().chain(anywhere).collect();
        for place in places {
            let mut broken = text.clone();
            broken[place] = random.pick(b"x\t\r\0\xff");
            tally.expect_refused_text(&broken, Refusal::TextForm);
        }
    });
    tally.expect_refused([Refusal::TextForm], [3 * 57 * LENGTHS.len()]);
    tally.finish(3 * 57 * LENGTHS.len());
}

#[test]
fn long_texts_without_a_number_are_1() {
    let mut tally = Tally::new("long texts of spaces");
    for (length, is_fine) in LENGTHS {
        let refusal = if is_fine {
            Refusal::ListLength
        } else {
            Refusal::TextForm
        };
        let mut text = vec![b' '; length];
        tally.expect_refused_text(&text, refusal);
        text[length - 1] = b'\n';
        tally.expect_refused_text(&text, refusal);
        // A newline that is not the last byte, and a comma alone.
        text[length - 2] = b'\n';
        tally.expect_refused_text(&text, Refusal::TextForm);
        text[length - 2] = b',';
        tally.expect_refused_text(&text, Refusal::TextForm);
    }
    tally.finish(3 * 4 * LENGTHS.len());
}

#[test]
fn more_than_255_numbers_are_1_up_to_4096_bytes() {
    let mut tally = Tally::new("long texts of many numbers");
    for (length, is_fine) in LENGTHS {
        let refusal = if is_fine {
            Refusal::ListLength
        } else {
            Refusal::TextForm
        };
        for number in ["1 ", "0,", "255 ", "999  ", "007 , "] {
            // As many whole numbers as fit, and then spaces.
            let mut text = number.repeat(length / number.len()).into_bytes();
            while text.pop_if(|last| !last.is_ascii_digit()).is_some() {}
            text.resize(length, b' ');
            tally.expect_refused_text(&text, refusal);
            text[length - 1] = b'\n';
            tally.expect_refused_text(&text, refusal);
            text[length - 1] = b'x';
            tally.expect_refused_text(&text, Refusal::TextForm);
        }
        // Digits to the end: two numbers in three bytes, or four digits.
        let text = "1 2".repeat(length.div_ceil(3));
        tally.expect_refused_text(&text.as_bytes()[..length], refusal);
        tally.expect_refused_text(&vec![b'1'; length], Refusal::TextForm);
    }
    tally.finish(3 * 17 * LENGTHS.len());
}

#[test]
fn numbers_of_254_to_257_and_of_multiples_of_256() {
    let name = "254, 255, 256 and more numbers";
    let counts = [
        254, 255, 256, 257, 258, 510, 511, 512, 513, 768, 1024, 1279, 2048,
    ];
    let tally = Tally::of_rounds(name, 223, counts, |tally, random, count| {
        let rising: Vec<u16> = (1..=999).cycle().take(count).collect();
        for numbers in [&rising, &vec![1; count], &vec![0; count]] {
            let words: Vec<String> = numbers.iter().map(u16::to_string).collect();
            for separator in [" ", ","] {
                let text = words.join(separator);
                let _ = tally.tidy(text.as_bytes(), 912);
            }
            if count < 300 {
                let _ = tally.tidy(&mixed_text(numbers, random), 912);
            }
        }
    });
    // Rising labels are accepted where they are 254 or 255. Of over 4,096 bytes
    // are the texts that count up 1,279 or 2,048 times.
    assert_eq!(tally.accepted(), 2 * 3);
    tally.expect_refused([Refusal::LabelTwice, Refusal::LabelOutside], [2 * 3; 2]);
    tally.expect_refused([Refusal::TextForm, Refusal::ListLength], [2 * 2, 71]);
    tally.finish(13 * 6 + 5 * 3);
}
