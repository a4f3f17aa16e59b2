//! Texts of label lists, accepted and refused.

use nenturxo::{TEXT_LENGTH, TIDY_CAPACITY};
use reference::cases::text::mixed_text;
use reference::cases::walk::random_list;
use reference::cases::Random;
use reference::{tidy_form, Refusal};

/// A kind of texts, and the refusal that it gets, if any.
pub struct Kind {
    pub name: &'static str,
    pub text: fn(usize, &mut Random) -> Vec<u8>,
    pub refusal: Option<Refusal>,
}

/// A tidy form, which stays as it is.
pub const TIDY_FORM: Kind = Kind {
    name: "tidy form",
    text: |n, random| tidy_form(&random_list(n, random).labels),
    refusal: None,
};

/// The labels of a plan, typed by many hands.
pub const MANY_HANDS: Kind = Kind {
    name: "many hands",
    text: |n, random| {
        let labels = random_list(n, random).labels;
        mixed_text(&labels, random)
    },
    refusal: None,
};

/// As many numbers as fit into the longest text, and only its last byte breaks
/// the form.
pub const BROKEN_AT_THE_END: Kind = Kind {
    name: "refused 18",
    text: |n, random| {
        let mut text = longest_text(n, random);
        text[TEXT_LENGTH - 1] = b'x';
        text
    },
    refusal: Some(Refusal::TextForm),
};

/// The same with the form kept.
pub const TOO_MANY_NUMBERS: Kind = Kind {
    name: "refused 1",
    text: longest_text,
    refusal: Some(Refusal::ListLength),
};

/// A text of 4,096 bytes, typed by many hands, with spaces at the end. It has
/// at most `n` numbers, and that is more than enough.
fn longest_text(n: usize, random: &mut Random) -> Vec<u8> {
    let numbers: Vec<u16> = (0..n).map(|_| random.number(1, 255)).collect();
    let mut text = mixed_text(&numbers, random);
    text.truncate(TEXT_LENGTH - 1);
    while text.pop_if(|last| !last.is_ascii_digit()).is_some() {}
    text.resize(TEXT_LENGTH, b' ');
    text
}

impl Kind {
    /// So many random texts of this kind. Both versions answer them alike.
    pub fn texts(&self, count: usize, n: usize) -> Vec<Vec<u8>> {
        let mut random = Random::from_seed(n as u64);
        let texts: Vec<Vec<u8>> = (0..count).map(|_| (self.text)(n, &mut random)).collect();
        for text in &texts {
            assert_eq!(answer(text).err(), self.refusal, "{}", shown(text));
        }
        texts
    }
}

/// What both versions answer a text with, in a slice that is long enough. They
/// must agree.
pub fn answer(text: &[u8]) -> Result<Vec<u8>, Refusal> {
    let [mut library, mut rust] = [[0; TIDY_CAPACITY]; 2];
    let by_library = nenturxo::tidy(text, &mut library).map_err(|r| r.number());
    let answer = reference::fast::tidy(text, &mut rust);
    let expected = answer.map_err(|refusal| u32::from(refusal.number()));
    assert_eq!(by_library, expected, "{}", shown(text));
    assert_eq!(library, rust, "{}", shown(text));
    answer.map(|length| rust[..length].to_vec())
}

fn shown(text: &[u8]) -> String {
    format!("{:?}", String::from_utf8_lossy(text))
}
