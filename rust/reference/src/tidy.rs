//! The call "Tidy" of M-100.

use crate::labels::baxter_list_of;
use crate::plan::front;
use crate::{numbers_in, tidy_form, Refusal};

/// Tidy: writes the tidy form of the label list that a text has to the front
/// of `tidy` and gives its length.
///
/// Bytes of `tidy` after the tidy form keep their values.
///
/// # Errors
///
/// The first cause found in the order 18, 1, 6, 7, 8, 15; `tidy` is then as it
/// was.
pub fn tidy(text: &[u8], tidy: &mut [u8]) -> Result<usize, Refusal> {
    let numbers = numbers_in(text).ok_or(Refusal::TextForm)?;
    let list = baxter_list_of(&numbers)?;
    let bytes = tidy_form(&list.labels);
    front(tidy, bytes.len())?.copy_from_slice(&bytes);
    Ok(bytes.len())
}

#[cfg(test)]
mod tests {
    use super::tidy;
    use crate::Refusal;

    /// What a text is answered with in a slice that is long enough.
    fn tidied(text: &[u8]) -> Result<String, Refusal> {
        let mut tidied = vec![0xa5; 912];
        let length = tidy(text, &mut tidied)?;
        assert!(tidied[length..].iter().all(|&byte| byte == 0xa5));
        tidied.truncate(length);
        Ok(String::from_utf8(tidied).expect("digits, spaces and a newline"))
    }

    #[test]
    fn the_labels_of_the_worked_plan() {
        let tidy = "4 1 3 5 2\n";
        for text in [" 4,1 , 03  5 002 \n", "4 1 3 5 2", "004,01,3,05,2", tidy] {
            assert_eq!(tidied(text.as_bytes()), Ok(tidy.to_string()), "{text:?}");
        }
    }

    #[test]
    fn each_refusal_and_those_that_it_comes_before() {
        let many = |number: &str, count: usize| number.repeat(count).into_bytes();
        for (text, refusal) in [
            (&b"1,"[..], Refusal::TextForm),
            (&[b' '; 4097], Refusal::TextForm),
            (&many("0 ", 256), Refusal::ListLength),
            (b"", Refusal::ListLength),
            (b"  \n", Refusal::ListLength),
            (&many("0 ", 255), Refusal::LabelOutside),
            (b"000", Refusal::LabelOutside),
            (b"1 257", Refusal::LabelOutside),
            (b"1 1 4", Refusal::LabelOutside),
            (&many("1,1 ", 127), Refusal::LabelTwice),
            (b"2 4 1 3 3", Refusal::LabelTwice),
            (b"2 4 1 3", Refusal::BarredPattern),
        ] {
            assert_eq!(tidied(text), Err(refusal), "{text:?}");
            assert_eq!(tidy(text, &mut []), Err(refusal), "{text:?}");
        }
        assert_eq!(tidy(b"1 2", &mut [0; 3]), Err(Refusal::SliceShort));
    }
}
