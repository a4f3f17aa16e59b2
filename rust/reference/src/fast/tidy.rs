//! "Tidy".
//!
//! The labels of an accepted list are 1 to n, so the length of its tidy form
//! is known before it is written, and it can be written where it is to stand.

use super::labels::room_count;
use super::text::labels_of;
use crate::Refusal;

/// Tidy, with the answers of [`crate::tidy`].
///
/// # Errors
///
/// As there.
// Not inlined, so that a benchmark pays for a call as with a library.
#[inline(never)]
pub fn tidy(text: &[u8], tidy: &mut [u8]) -> Result<usize, Refusal> {
    let mut places = [0; 255];
    let labels = labels_of(text, &mut places)?;
    room_count(labels, std::iter::repeat(|_| {}))?;
    let length = tidy_length(labels.len());
    let front = tidy.get_mut(..length).ok_or(Refusal::SliceShort)?;
    write(labels, front);
    Ok(length)
}

/// The length of the tidy form of the labels 1 to n: two bytes for each, one
/// more from 10 on, and another one from 100 on.
fn tidy_length(n: usize) -> usize {
    2 * n + n.saturating_sub(9) + n.saturating_sub(99)
}

/// Writes a tidy form to a slice of just its length.
fn write(labels: &[u8], tidy: &mut [u8]) {
    let [others @ .., last] = labels else {
        return;
    };
    // Four bytes each time: the next labels go over those that are too many.
    let mut at = 0;
    for &label in others {
        tidy[at..at + 4].copy_from_slice(&WORDS[usize::from(label)]);
        at += 2 + usize::from(label > 9) + usize::from(label > 99);
    }
    let (word, end) = (WORDS[usize::from(*last)], tidy.len() - at);
    tidy[at..].copy_from_slice(&word[..end]);
    tidy[at + end - 1] = b'\n';
}

/// Each label as it stands in a tidy form, with spaces after it.
const WORDS: [[u8; 4]; 256] = {
    let mut words = [[b' '; 4]; 256];
    let mut label = 0;
    while label < 256 {
        let [hundreds, tens, ones] = [label / 100, label / 10 % 10, label % 10];
        let digits = [hundreds as u8, tens as u8, ones as u8];
        let mut from = if label > 99 {
            0
        } else if label > 9 {
            1
        } else {
            2
        };
        let mut to = 0;
        while from < 3 {
            words[label][to] = b'0' + digits[from];
            (from, to) = (from + 1, to + 1);
        }
        label += 1;
    }
    words
};

#[cfg(test)]
mod tests {
    use crate::cases::text::{damage_text, every_text, typed_text};
    use crate::cases::walk::{list_in_turn, some_count};
    use crate::cases::Random;
    use crate::{fast, numbers_in, tidy, tidy_form, Refusal};

    /// Compares the two versions on a slice of so many bytes.
    fn compare_into(text: &[u8], capacity: usize) -> Result<usize, Refusal> {
        let (mut expected, mut found) = (vec![0xa5; capacity], vec![0xa5; capacity]);
        let answers = (tidy(text, &mut expected), fast::tidy(text, &mut found));
        let shown = || String::from_utf8_lossy(text).into_owned();
        assert_eq!(answers.0, answers.1, "{:?} into {capacity}", shown());
        assert_eq!(expected, found, "{:?} into {capacity}", shown());
        answers.0
    }

    /// Compares the two versions on slices of every length that matters, and
    /// gives the answer to a long one.
    fn compare(text: &[u8]) -> Result<usize, Refusal> {
        let answer = compare_into(text, 916);
        if let Ok(needed) = answer {
            for capacity in [0, needed - 1, needed, needed + 1] {
                let _ = compare_into(text, capacity);
            }
        }
        answer
    }

    #[test]
    fn agrees_with_the_definitions_on_every_text_of_up_to_6_bytes() {
        let mut accepted = 0;
        for text in (0..=6).flat_map(every_text) {
            accepted += usize::from(compare(&text).is_ok());
        }
        // Counted by hand: 77 texts list 1, and 185 each list 1 2 and 2 1.
        assert_eq!(accepted, 77 + 2 * 185);
    }

    #[test]
    fn agrees_with_the_definitions_on_typed_and_on_damaged_texts() {
        let mut random = Random::from_seed(1);
        let mut broken = 0;
        for round in 0..3_000 {
            let n = some_count(&mut random);
            let labels = list_in_turn(n, round, &mut random).labels;
            let mut text = typed_text(&labels, &mut random);
            assert!(compare(&text).is_ok(), "{labels:?}");
            for _ in 0..3 {
                damage_text(&mut text, &mut random);
                broken += usize::from(compare(&text) == Err(Refusal::TextForm));
            }
        }
        assert!(broken > 3_000, "only {broken} texts break the form");
    }

    #[test]
    fn agrees_with_the_definitions_on_any_numbers() {
        let mut random = Random::from_seed(2);
        for _ in 0..3_000 {
            let count = random.pick(&[1, 2, 5, 40, 254, 255, 256, 300]);
            let greatest = random.pick(&[5, 99, 255, 256, 300, 999]);
            let mut numbers = Vec::new();
            numbers.resize_with(count, || random.number(0, greatest));
            let text = typed_text(&numbers, &mut random);
            assert_eq!(numbers_in(&text), Some(numbers));
            let _ = compare(&text);
        }
    }

    /// Whatever stands at the ends of the blocks, in all ways to lie there.
    #[test]
    fn agrees_with_the_definitions_wherever_the_blocks_end() {
        let wholes = [
            "3 2 1", "1,002 ,3", "1 , 2", ",", "1 2,", "1,,2", "0001", "1 2x", "1\n", "",
        ];
        for text in wholes {
            for before in 0..200 {
                for after in [0, 1, 2, 3, 4, 61, 62, 63, 64, 65, 66, 67, 68, 69] {
                    let _ = compare(format!("{:before$}{text}{:after$}", "", "").as_bytes());
                    let _ = compare(format!("{:before$}{text}{:after$}\n", "", "").as_bytes());
                }
            }
        }
        for (text, between) in (0..200).flat_map(|between| [("2,", between), ("2 ", between)]) {
            for end in ["1", ",1", " ,1", "x", "", ", ", "1,", "\n1"] {
                let _ = compare(format!("{text}{:between$}{end}", "").as_bytes());
            }
        }
    }

    #[test]
    fn agrees_with_the_definitions_on_the_longest_texts() {
        let all: Vec<u8> = (1..=255).collect();
        for length in 4090..=4100 {
            for end in ["", "\n", "x", ",", "7"] {
                for front in ["1", "", "1 2 x", "1 2,"] {
                    let width = length - end.len();
                    let text = format!("{front:<width$}{end}");
                    let _ = compare(text.as_bytes());
                }
                let mut text = tidy_form(&all);
                text.truncate(911);
                text.resize(length - end.len(), b' ');
                text.extend(end.bytes());
                let _ = compare(&text);
                let text = format!("{}{end}", "1 ".repeat((length - end.len()) / 2));
                let _ = compare(text.as_bytes());
            }
        }
    }
}
