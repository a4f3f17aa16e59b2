//! The program `planlist` of the sheet.

use crate::{plan_of, Room};

/// The most bytes that the program reads.
const MOST: usize = 98;

/// What the program prints for the bytes on its standard input, of which it
/// reads at most 98: a header line, the word `rooms` and n, then one line per
/// position: position, label, left, bottom, right, top, one space between. A
/// refused record prints `refused` and the number on one line.
#[must_use]
pub fn planlist(input: &[u8]) -> String {
    let record = &input[..input.len().min(MOST)];
    let plan = match plan_of(record) {
        Ok(plan) => plan,
        Err(refusal) => return format!("refused {}\n", refusal.number()),
    };
    let mut text = format!("rooms {}\n", plan.labels.len());
    for (position, (label, room)) in (1..).zip(plan.labels.iter().zip(plan.rooms)) {
        let Room {
            left,
            bottom,
            right,
            top,
            ..
        } = room;
        text += &format!("{position} {label} {left} {bottom} {right} {top}\n");
    }
    text
}

#[cfg(test)]
mod tests {
    use super::planlist;
    use crate::cases::worked;
    use crate::{plan_of, Refusal};

    #[test]
    fn the_listing_printed_in_the_sheet() {
        assert_eq!(planlist(&worked::LISTED), worked::LISTING);
        assert_eq!(planlist(&[0x02, 0x60]), "refused 12\n");
        assert_eq!(planlist(&[]), "refused 9\n");
    }

    #[test]
    fn the_first_98_bytes_of_any_input_decide_what_all_of_it_would() {
        // More than 98 bytes are 9 or 11 already, whatever follows.
        for kind in 0..=255 {
            for length in [98, 99, 100, 500] {
                let mut input = vec![0; length];
                input[0] = kind;
                let refusal = plan_of(&input).unwrap_err();
                assert_eq!(planlist(&input), format!("refused {}\n", refusal.number()));
                let expected = match kind {
                    0 => Refusal::NoKind,
                    _ => Refusal::BytesAfter,
                };
                assert_eq!(refusal, expected);
            }
        }
    }
}
