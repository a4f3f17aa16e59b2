//! The call "Pattern" of M-105.

use crate::labels::label_list_of;
use crate::Refusal;

/// The two conditions of "Barred patterns" in the sheet.
#[derive(Clone, Copy, Debug, PartialEq, Eq, Hash)]
pub enum Condition {
    /// The labels a, b, c, d have c < a + 1 = d < b.
    First,
    /// The labels a, b, c, d have b < d + 1 = a < c.
    Second,
}

impl Condition {
    /// Which of the two the labels a, b, c, d meet, if any. They never meet
    /// both: d is 1 more than a in the first one and 1 less in the second.
    #[must_use]
    pub fn met_by(four: [u8; 4]) -> Option<Self> {
        // Wider numbers, so that 255 + 1 is 256.
        let [a, b, c, d] = four.map(u16::from);
        if c < a + 1 && a + 1 == d && d < b {
            Some(Self::First)
        } else if b < d + 1 && d + 1 == a && a < c {
            Some(Self::Second)
        } else {
            None
        }
    }

    /// The one that labels meet counted from the other end, if they meet this
    /// one: what is larger is then smaller, and 1 more is 1 less.
    #[must_use]
    pub const fn other(self) -> Self {
        match self {
            Self::First => Self::Second,
            Self::Second => Self::First,
        }
    }
}

/// A barred pattern: positions i < j < k < l, each from 1 on, and which of the
/// two conditions the labels there meet.
#[derive(Clone, Copy, Debug, PartialEq, Eq, Hash)]
pub struct Pattern {
    /// Which condition is met.
    pub condition: Condition,
    /// Where a stands.
    pub i: u8,
    /// Where b stands.
    pub j: u8,
    /// Where c stands.
    pub k: u8,
    /// Where d stands.
    pub l: u8,
}

/// Pattern: "the four positions and which of the two conditions they meet",
/// for a label list with a barred pattern; else none.
///
/// # Errors
///
/// The first cause found in the order 1, 6, 7.
pub fn pattern(labels: &[u8]) -> Result<Option<Pattern>, Refusal> {
    let list = label_list_of(labels)?;
    Ok(first_pattern(&list.labels))
}

/// "The four are the first ones in order of i, then j, then k, then l."
///
/// All four positions are searched, which takes long for long lists.
fn first_pattern(labels: &[u8]) -> Option<Pattern> {
    let n = labels.len();
    for i in 0..n {
        for j in i + 1..n {
            for k in j + 1..n {
                for l in k + 1..n {
                    let four = [i, j, k, l].map(|place| labels[place]);
                    if let Some(condition) = Condition::met_by(four) {
                        return Some(at_places(condition, [i, j, k, l]));
                    }
                }
            }
        }
    }
    None
}

/// The pattern at these places, which are counted from 0.
fn at_places(condition: Condition, places: [usize; 4]) -> Pattern {
    let position = |place: usize| u8::try_from(place + 1).expect("at most 255 labels");
    let [i, j, k, l] = places.map(position);
    Pattern {
        condition,
        i,
        j,
        k,
        l,
    }
}

#[cfg(test)]
mod tests {
    use super::{pattern, Condition, Pattern};
    use crate::cases::worked::{BARRED, LISTS};
    use crate::cases::{each_permutation, every_list, BAXTER_NUMBERS};
    use crate::{is_barred, Refusal};

    fn found(condition: Condition, [i, j, k, l]: [u8; 4]) -> Result<Option<Pattern>, Refusal> {
        Ok(Some(Pattern {
            condition,
            i,
            j,
            k,
            l,
        }))
    }

    #[test]
    fn the_two_lists_that_the_sheet_bars() {
        let [first, second] = BARRED.map(pattern);
        assert_eq!(first, found(Condition::First, [1, 2, 3, 4]));
        assert_eq!(second, found(Condition::Second, [1, 2, 3, 4]));
    }

    #[test]
    fn the_first_positions_are_named_where_there_are_several() {
        // Of 5 and 6 the first is b, and of 2 and 1 the first is c.
        let answer = pattern(&[3, 5, 6, 2, 1, 4]);
        assert_eq!(answer, found(Condition::First, [1, 2, 4, 6]));
        // From position 1 the second condition is met by 3 1 5 2, and later, by
        // 3 5 2 4, the first one.
        let answer = pattern(&[3, 1, 5, 2, 4]);
        assert_eq!(answer, found(Condition::Second, [1, 2, 3, 4]));
        // The other way round: 3 5 1 4, and then 3 1 6 2.
        let answer = pattern(&[3, 5, 1, 6, 4, 2]);
        assert_eq!(answer, found(Condition::First, [1, 2, 3, 5]));
    }

    #[test]
    fn accepted_lists_have_no_pattern() {
        for (labels, _) in LISTS {
            assert_eq!(pattern(labels), Ok(None), "{labels:?}");
        }
    }

    #[test]
    fn each_refusal_and_those_that_it_comes_before() {
        for (labels, refusal) in [
            (&[][..], Refusal::ListLength),
            (&[0; 256], Refusal::ListLength),
            (&[1; 256], Refusal::ListLength),
            (&[0], Refusal::LabelOutside),
            (&[1, 1, 4], Refusal::LabelOutside),
            (&[2, 4, 1, 3, 6], Refusal::LabelOutside),
            (&[1, 1], Refusal::LabelTwice),
            (&[2, 4, 1, 3, 3], Refusal::LabelTwice),
        ] {
            assert_eq!(pattern(labels), Err(refusal), "{labels:?}");
        }
    }

    #[test]
    fn a_list_of_up_to_7_labels_has_a_pattern_exactly_if_it_is_barred() {
        for (n, baxter) in (1..=7).zip(BAXTER_NUMBERS) {
            let mut without = 0;
            each_permutation(n, |labels| {
                let answer = pattern(labels);
                let is_named = answer.is_ok_and(|pattern| pattern.is_some());
                assert_eq!(is_named, is_barred(labels), "{labels:?}");
                without += usize::from(answer == Ok(None));
            });
            assert_eq!(without, baxter, "n = {n}");
        }
    }

    #[test]
    fn labels_that_meet_a_condition_are_shaped_like_2413_or_3142() {
        let mut met = [0; 2];
        for four in every_list(9, 4) {
            let [a, b, c, d] = [0, 1, 2, 3].map(|place| four[place]);
            // A label occurs once.
            if (1..4).any(|at| four[..at].contains(&four[at])) {
                continue;
            }
            let condition = Condition::met_by([a, b, c, d]);
            let from_other_end = Condition::met_by([a, b, c, d].map(|label| 9 - label));
            assert_eq!(from_other_end, condition.map(Condition::other), "{four:?}");
            let shapes = [c < a && a < d && d < b, b < d && d < a && a < c];
            for (place, which) in [(0, Condition::First), (1, Condition::Second)] {
                let is_met = condition == Some(which);
                let is_next = a.abs_diff(d) == 1;
                assert_eq!(is_met, shapes[place] && is_next, "{four:?}");
                met[place] += usize::from(is_met);
            }
        }
        // With a labels below a and 8 - a above a + 1, for a from 0 to 8.
        assert_eq!(met, [84, 84]);
    }
}
