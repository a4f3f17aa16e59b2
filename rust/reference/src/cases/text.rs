//! Texts of label lists, as many hands type them, and damage to them.

use super::Random;

/// A way of typing: what may stand between two numbers, and how many digits a
/// number has at least.
struct Hand {
    separators: &'static [&'static str],
    digits: &'static [usize],
}

const HANDS: [Hand; 6] = [
    Hand {
        separators: &[" "],
        digits: &[1],
    },
    Hand {
        separators: &[","],
        digits: &[1, 1, 2],
    },
    Hand {
        separators: &[", "],
        digits: &[2],
    },
    Hand {
        separators: &[" ", "  ", "   "],
        digits: &[3],
    },
    Hand {
        separators: &[" , ", " ,", ",  "],
        digits: &[1],
    },
    Hand {
        separators: &[" ", ", ", "     ", "   ,   "],
        digits: &[1, 2, 3],
    },
];

/// A text that lists these numbers, at most 999 each: all of it typed by one
/// hand, or each number by some hand.
pub fn typed_text<T: Copy + Into<u16>>(numbers: &[T], random: &mut Random) -> Vec<u8> {
    if random.below(2) == 0 {
        return mixed_text(numbers, random);
    }
    let hand = random.below(HANDS.len());
    typed_by(numbers, |_| &HANDS[hand], random)
}

/// A text that lists these numbers, at most 999 each, typed by many hands.
pub fn mixed_text<T: Copy + Into<u16>>(numbers: &[T], random: &mut Random) -> Vec<u8> {
    typed_by(numbers, |random| &HANDS[random.below(HANDS.len())], random)
}

/// A text that lists these numbers. `hand` says who types the next one.
fn typed_by<T: Copy + Into<u16>>(
    numbers: &[T],
    hand: impl Fn(&mut Random) -> &'static Hand,
    random: &mut Random,
) -> Vec<u8> {
    let mut text = String::from(random.pick(&["", "", " ", "   "]));
    for (place, &number) in numbers.iter().enumerate() {
        let hand = hand(random);
        if place > 0 {
            text += random.pick(hand.separators);
        }
        let (number, digits): (u16, usize) = (number.into(), random.pick(hand.digits));
        text += &format!("{number:0digits$}");
    }
    text += random.pick(&["", "", " ", "    "]);
    text += random.pick(&["", "\n"]);
    text.into_bytes()
}

/// Bytes that a slip of the finger puts into a text: those of the form, and
/// others.
const SLIPS: [u8; 13] = *b"  ,,\n\n0159\t\rx";

/// Drops a byte, doubles one, puts another in its place, or adds one before it
/// or at the end.
pub fn damage_text(text: &mut Vec<u8>, random: &mut Random) {
    let slip = match random.below(16) {
        0 => random.byte(),
        _ => random.pick(&SLIPS),
    };
    if text.is_empty() {
        return text.push(slip);
    }
    // The ends come up often: other rules hold there.
    let last = text.len() - 1;
    let place = match random.below(8) {
        0 => 0,
        1 => last,
        _ => random.below(text.len()),
    };
    match random.below(8) {
        0 => drop(text.remove(place)),
        1 => text.insert(place, text[place]),
        2 | 3 => text[place] = slip,
        4..=6 => text.insert(place, slip),
        _ => text.push(slip),
    }
}

/// The bytes from which [`every_text`] makes its texts: those of the form, of
/// its digits some, and one that the form does not know.
pub const ALPHABET: [u8; 8] = *b"0129 ,\nx";

/// Every text of `length` bytes of the alphabet.
pub fn every_text(length: u32) -> impl Iterator<Item = Vec<u8>> {
    let bytes = |places: Vec<u8>| places.into_iter().map(|place| ALPHABET[usize::from(place)]);
    super::every_list(7, length).map(move |places| bytes(places).collect())
}

#[cfg(test)]
mod tests {
    use super::{damage_text, every_text, mixed_text, typed_text};
    use crate::cases::Random;
    use crate::numbers_in;
    use std::collections::HashSet;

    #[test]
    fn typed_texts_list_their_numbers() {
        let mut random = Random::from_seed(41);
        for round in 0..2_000 {
            let numbers: Vec<u16> = (0..round % 300).map(|_| random.number(0, 999)).collect();
            for text in [
                typed_text(&numbers, &mut random),
                mixed_text(&numbers, &mut random),
            ] {
                assert_eq!(numbers_in(&text), Some(numbers.clone()), "{text:?}");
            }
        }
    }

    #[test]
    fn damage_breaks_some_texts_and_not_others() {
        let mut random = Random::from_seed(42);
        let mut broken = 0;
        for round in 0..2_000 {
            let mut text = typed_text(&[4u8, 1, 3, 5, 2][..round % 6], &mut random);
            damage_text(&mut text, &mut random);
            broken += usize::from(numbers_in(&text).is_none());
        }
        assert!((800..1_200).contains(&broken), "{broken} of 2,000 broken");
    }

    #[test]
    fn every_short_text_comes_up_once() {
        for length in 0..=4 {
            let texts: HashSet<Vec<u8>> = every_text(length).collect();
            assert_eq!(texts.len(), 8usize.pow(length));
        }
    }
}
