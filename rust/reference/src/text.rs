//! The text of a label list: the form that M-100 fixes, and the tidy form.

/// The length of the longest text.
const LONGEST: usize = 4096;

/// The numbers that a text lists, or `None` if it breaks the form or is longer
/// than 4,096 bytes.
///
/// "Spaces may stand before the first and after the last number, and one
/// newline may end the text."
#[must_use]
pub fn numbers_in(text: &[u8]) -> Option<Vec<u16>> {
    if text.len() > LONGEST {
        return None;
    }
    // What is no UTF-8 has bytes that the form does not know.
    let text = std::str::from_utf8(text).ok()?;
    let line = text.strip_suffix('\n').unwrap_or(text);
    let mut rest = line.trim_matches(' ');

    let mut numbers = Vec::new();
    while !rest.is_empty() {
        if !numbers.is_empty() {
            rest = after_separator(rest)?;
        }
        let (number, after) = number_in_front(rest)?;
        numbers.push(number);
        rest = after;
    }
    Some(numbers)
}

/// The number in front of a text and what stands after it: "numbers of one to
/// three decimal digits, leading zeros allowed".
fn number_in_front(text: &str) -> Option<(u16, &str)> {
    let after = text.trim_start_matches(|c: char| c.is_ascii_digit());
    let digits = &text[..text.len() - after.len()];
    let number = digits.parse().ok()?;
    (1..=3).contains(&digits.len()).then_some((number, after))
}

/// What stands after the separator in front of a text: "one or more spaces, or
/// one comma with any spaces round it".
fn after_separator(text: &str) -> Option<&str> {
    let after = text.trim_start_matches([' ', ',']);
    let separator = &text[..text.len() - after.len()];
    let commas = separator.matches(',').count();
    (!separator.is_empty() && commas <= 1).then_some(after)
}

/// The tidy form of a label list: "no leading zeros, one space between, one
/// newline at the end".
#[must_use]
pub fn tidy_form(labels: &[u8]) -> Vec<u8> {
    let numbers: Vec<String> = labels.iter().map(u8::to_string).collect();
    (numbers.join(" ") + "\n").into_bytes()
}

#[cfg(test)]
mod tests {
    use super::{numbers_in, tidy_form};

    /// The numbers in a text that keeps the form.
    fn kept(text: &str) -> Vec<u16> {
        numbers_in(text.as_bytes()).unwrap_or_else(|| panic!("{text:?} breaks the form"))
    }

    #[test]
    fn texts_that_keep_the_form() {
        assert_eq!(kept(" 4,1 , 03  5 002 \n"), [4, 1, 3, 5, 2]);
        assert_eq!(kept("1"), [1]);
        assert_eq!(kept("  1  "), [1]);
        assert_eq!(kept("000 999\n"), [0, 999]);
        assert_eq!(kept("1   ,   2,3 4"), [1, 2, 3, 4]);
        for nothing in ["", "\n", " ", "   \n"] {
            assert_eq!(kept(nothing), [], "{nothing:?}");
        }
    }

    #[test]
    fn texts_that_break_the_form() {
        let broken = [
            ",", ",1", "1,", " , 1", "1 ,\n", "1,,2", "1, ,2", "1 2,", "0001", "1234", "1\n\n",
            "\n1", "1\n2", "1\n ", "\n\n", "1\t2", "1\r\n", "x", "1x", "-1", "+1", "1.", "１",
        ];
        for text in broken {
            assert_eq!(numbers_in(text.as_bytes()), None, "{text:?}");
        }
        assert_eq!(numbers_in(b"1 \xff"), None);
        assert_eq!(numbers_in(b"\x001"), None);
    }

    #[test]
    fn a_text_has_at_most_4096_bytes() {
        for (length, is_kept) in [(4095, true), (4096, true), (4097, false), (8192, false)] {
            let mut text = vec![b' '; length];
            assert_eq!(numbers_in(&text).is_some(), is_kept, "{length} spaces");
            text[length - 1] = b'\n';
            text[length - 2] = b'7';
            let numbers = is_kept.then(|| vec![7]);
            assert_eq!(numbers_in(&text), numbers, "{length} bytes");
        }
    }

    #[test]
    fn the_tidy_form_of_the_sheets_labels() {
        assert_eq!(tidy_form(&[4, 1, 3, 5, 2]), b"4 1 3 5 2\n");
        assert_eq!(tidy_form(&[100, 9, 20]), b"100 9 20\n");
        let all: Vec<u8> = (1..=255).collect();
        assert_eq!(tidy_form(&all).len(), 9 * 2 + 90 * 3 + 156 * 4);
    }
}
