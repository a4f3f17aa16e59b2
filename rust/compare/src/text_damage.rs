//! Texts of label lists with damage that is known.

use crate::causes::first_cause;
use crate::label_damage::{repeat_a_label, swap_until_barred};
use reference::cases::text::typed_text;
use reference::cases::walk::biased_list;
use reference::cases::Random;
use reference::Refusal;

/// What is wrong with a text: of each cause of a refusal, in the request's
/// order, whether it is there. There may be any number of them at once.
#[derive(Clone, Copy, Debug)]
pub struct TextDamage([bool; 5]);

impl TextDamage {
    /// The number of combinations.
    pub const COUNT: usize = 32;

    /// Every combination, no damage too.
    pub fn all() -> impl Iterator<Item = Self> {
        (0..Self::COUNT).map(|bits| Self([1, 2, 4, 8, 16].map(|worth| bits & worth != 0)))
    }

    /// The refusal that comes first in the request's order.
    #[must_use]
    pub fn refusal(self) -> Option<Refusal> {
        first_cause(Refusal::OF_TEXTS, self.0)
    }

    /// A random text with this damage and no other; but more than 255 numbers
    /// always have one twice or outside.
    pub fn text(self, random: &mut Random) -> Vec<u8> {
        let [broken, too_many, outside, twice, barred] = self.0;
        let n = random.pick(&[6, 7, 8, 12, 40, 100, 254, 255]);
        let mut labels = biased_list(n, random).labels;
        if barred {
            swap_until_barred(&mut labels, random);
        }
        if twice {
            repeat_a_label(&mut labels, random);
        }
        let mut numbers: Vec<u16> = labels.into_iter().map(u16::from).collect();
        if outside {
            put_a_number_outside(&mut numbers, random);
        }
        if too_many {
            let count = random.pick(&[256, 257, 300]);
            numbers = numbers.into_iter().cycle().take(count).collect();
        }
        let mut text = typed_text(&numbers, random);
        if broken {
            break_form(&mut text, random);
        }
        text
    }
}

/// Puts 0 or a number above n at some place, be it one whose lowest byte is a
/// label.
pub fn put_a_number_outside(numbers: &mut [u16], random: &mut Random) {
    let place = random.below(numbers.len());
    let above = numbers.len() as u16 + 1;
    let more_by_256 = 256 + numbers[place] % 256;
    numbers[place] = random.pick(&[0, above, above, 256, more_by_256, 512, 999]);
}

/// Breaks the form of a text that has a number.
pub fn break_form(text: &mut Vec<u8>, random: &mut Random) {
    let place = random.below(text.len());
    match random.below(8) {
        // Bytes that the form does not know.
        0 => text.insert(place, random.pick(b"x-+.;\t\r\0\xff\x80\x2f\x3a\x10\xb0")),
        // Commas that are not between two numbers.
        1 => text.insert(0, b','),
        2 => {
            let line = text.strip_suffix(b"\n").unwrap_or(text).len();
            text.insert(line, b',');
        }
        3 => drop(text.splice(place..place, random.pick(&[*b",,", *b",\n"]))),
        4 => drop(text.splice(place..place, *b", ,")),
        // A newline that is not the last byte, and four digits.
        5 => text.insert(place, b'\n'),
        6 => drop(text.splice(place..place, random.pick(&[*b"0001", *b"1234"]))),
        // More than 4,096 bytes.
        _ => {
            let length = random.pick(&[4097, 4098, 4100, 5000, 8192, 65_537]);
            let spaces = length - text.len();
            drop(text.splice(0..0, std::iter::repeat_n(b' ', spaces)));
        }
    }
}
