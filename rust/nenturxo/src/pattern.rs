//! Barred patterns.

use crate::sys::LongCode;

/// The two conditions of a barred pattern. Positions i < j < k < l have the
/// labels a, b, c, d.
#[derive(Clone, Copy, Debug, PartialEq, Eq, Hash)]
pub enum Condition {
    /// c < a + 1 = d < b, as in 2 4 1 3.
    First,
    /// b < d + 1 = a < c, as in 3 1 4 2.
    Second,
}

/// A barred pattern of a label list: positions i < j < k < l, counted from 1,
/// and which of the two conditions the labels there meet.
///
/// ```
/// use nenturxo::{pattern, Condition};
///
/// fn in_words(labels: &[u8]) -> String {
///     let Ok(Some(named)) = pattern(labels) else {
///         return String::from("no pattern");
///     };
///     let four = [named.i, named.j, named.k, named.l];
///     let [a, b, c, d] = four.map(|position| labels[usize::from(position) - 1]);
///     match named.condition {
///         Condition::First => format!("from {a} to {d} up to {b} and down to {c}"),
///         Condition::Second => format!("from {a} to {d} down to {b} and up to {c}"),
///     }
/// }
///
/// assert_eq!(in_words(&[2, 4, 1, 3]), "from 2 to 3 up to 4 and down to 1");
/// assert_eq!(in_words(&[3, 1, 4, 2]), "from 3 to 2 down to 1 and up to 4");
/// assert_eq!(in_words(&[3, 4, 1, 2]), "no pattern");
/// ```
#[derive(Clone, Copy, Debug, PartialEq, Eq, Hash)]
pub struct Pattern {
    /// Which condition the labels at the four positions meet.
    pub condition: Condition,
    /// The position of a.
    pub i: u8,
    /// The position of b.
    pub j: u8,
    /// The position of c.
    pub k: u8,
    /// The position of d.
    pub l: u8,
}

impl Pattern {
    /// The pattern that a code stands for, if any: a code from 0 on has the
    /// condition in its fifth byte from the low end, 0 for none, and below it
    /// i, j, k and l.
    pub(crate) const fn from_code(code: LongCode) -> Option<Self> {
        let [_, _, _, condition, i, j, k, l] = code.to_be_bytes();
        let condition = match condition {
            0 => return None,
            1 => Condition::First,
            // The library has no other codes.
            _ => Condition::Second,
        };
        Some(Self {
            condition,
            i,
            j,
            k,
            l,
        })
    }
}

#[cfg(test)]
mod tests {
    use super::{Condition, Pattern};

    #[test]
    fn every_part_of_a_code_is_read() {
        assert_eq!(Pattern::from_code(0), None);
        let conditions = [Condition::First, Condition::Second];
        let fours = [
            [1, 2, 3, 4],
            [1, 2, 3, 255],
            [7, 100, 200, 201],
            [252, 253, 254, 255],
        ];
        for (number, condition) in (1..).zip(conditions) {
            for [i, j, k, l] in fours {
                let [high, next, third, low] = [i, j, k, l].map(i64::from);
                let code = (number << 32) + (high << 24) + (next << 16) + (third << 8) + low;
                let expected = Pattern {
                    condition,
                    i,
                    j,
                    k,
                    l,
                };
                assert_eq!(Pattern::from_code(code), Some(expected), "{code}");
            }
        }
    }

    #[test]
    fn the_numbers_in_the_header_are_those_of_2_4_1_3_and_3_1_4_2() {
        for (code, condition) in [
            (4_311_876_356, Condition::First),
            (8_606_843_652, Condition::Second),
        ] {
            let [i, j, k, l] = [1, 2, 3, 4];
            let expected = Pattern {
                condition,
                i,
                j,
                k,
                l,
            };
            assert_eq!(Pattern::from_code(code), Some(expected));
        }
    }
}
