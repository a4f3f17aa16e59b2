//! Label lists whose first barred pattern is known from the way in which they
//! are made.

use super::walk::list_in_turn;
use super::worked::BARRED;
use super::Random;
use crate::{Condition, Pattern};

/// The list with a block of labels, from 1 on and each once, in the place of
/// one label. Labels above it move up.
///
/// # Panics
///
/// If there are over 255 labels then, or none in the block.
#[must_use]
pub fn with_a_block(labels: &[u8], place: usize, block: &[u8]) -> Vec<u8> {
    let old = labels[place];
    let more = u8::try_from(block.len() - 1).expect("at most 255 labels");
    let moved = |&label: &u8| if label > old { label + more } else { label };
    let mut labels: Vec<u8> = labels.iter().map(moved).collect();
    labels.splice(place..=place, block.iter().map(|label| old - 1 + label));
    labels
}

/// The labels of a list counted from the other end.
///
/// # Panics
///
/// If there are over 255 labels.
#[must_use]
pub fn counted_down(labels: &[u8]) -> Vec<u8> {
    let n = u8::try_from(labels.len()).expect("at most 255 labels");
    labels.iter().map(|label| n - (label - 1)).collect()
}

/// A list with a barred pattern, and its first one.
#[derive(Clone, Debug)]
pub struct BarredList {
    /// The labels by position.
    pub labels: Vec<u8>,
    /// The first pattern.
    pub first: Pattern,
}

impl BarredList {
    /// The number of labels more than in the list in which a pattern is
    /// planted.
    pub const MORE: usize = 3;

    /// A Baxter list with four labels in the place of one, 2 4 1 3 or 3 1 4 2
    /// as a block, as the condition wants it. From outside, the labels of a
    /// block look like one. So the block is the only pattern.
    ///
    /// # Panics
    ///
    /// If there are over 255 labels then.
    #[must_use]
    pub fn planted(baxter: &[u8], place: usize, condition: Condition) -> Self {
        let block = match condition {
            Condition::First => BARRED[0],
            Condition::Second => BARRED[1],
        };
        let position = u8::try_from(place + 1).expect("at most 255 labels");
        Self {
            labels: with_a_block(baxter, place, block),
            first: Pattern {
                condition,
                i: position,
                j: position + 1,
                k: position + 2,
                l: position + 3,
            },
        }
    }

    /// As [`Self::planted`], with a second pattern at a later place, which
    /// meets the other condition.
    ///
    /// # Panics
    ///
    /// As there.
    #[must_use]
    pub fn planted_twice(baxter: &[u8], places: [usize; 2], condition: Condition) -> Self {
        let [first, second] = places;
        assert!(first < second, "the second place comes later");
        let later = Self::planted(baxter, second, condition.other());
        Self::planted(&later.labels, first, condition)
    }

    /// `n` labels, at least 4, of which only the last four are a pattern.
    pub fn at_the_end(n: usize, condition: Condition, round: usize, random: &mut Random) -> Self {
        let baxter = list_in_turn(n - Self::MORE, round, random).labels;
        Self::planted(&baxter, n - Self::MORE - 1, condition)
    }

    /// `n` labels, at least 4, that mostly stand far from the next ones: they go
    /// up with one half of the labels and down with the other one, nearly as in
    /// 1 3 5 6 4 2. The only pattern is between the halves. So whatever looks
    /// for a pattern from each label to the next ones goes a long way for
    /// nothing, half the list through.
    ///
    /// # Panics
    ///
    /// If `n` is over 255.
    pub fn after_long_ways(n: usize, condition: Condition, random: &mut Random) -> Self {
        let top = u8::try_from(n - Self::MORE).expect("at most 255 labels");
        let (mut up, mut down) = (Vec::new(), Vec::new());
        let mut goes_up = false;
        for label in 1..top {
            goes_up ^= random.below(8) > 0;
            match goes_up {
                true => up.push(label),
                false => down.push(label),
            }
        }
        let place = up.len();
        up.push(top);
        up.extend(down.iter().rev());
        Self::planted(&up, place, condition)
    }

    /// So many labels that rise, and behind them blocks of `width` labels each,
    /// at least 1: low ones, high ones, low ones and a high one. Between the two
    /// in the middle are the last label of the first block and the next one,
    /// which is the last of all. There is no pattern before these.
    ///
    /// # Panics
    ///
    /// If there are over 255 labels.
    #[must_use]
    pub fn in_blocks(rising: u8, width: u8) -> Self {
        let a = rising + 2 * width;
        let rise = 1..rising + width;
        let high = a + 2..=a + 1 + width;
        let low = rising + width..a;
        let labels = rise.chain([a]).chain(high).chain(low).chain([a + 1]);
        Self {
            labels: labels.collect(),
            first: Pattern {
                condition: Condition::First,
                i: rising + width,
                j: rising + width + 1,
                k: a + 1,
                l: a + width + 1,
            },
        }
    }

    /// The same counted from the other end: the same positions meet the other
    /// condition.
    #[must_use]
    pub fn counted_down(&self) -> Self {
        Self {
            labels: counted_down(&self.labels),
            first: Pattern {
                condition: self.first.condition.other(),
                ..self.first
            },
        }
    }
}

#[cfg(test)]
mod tests {
    use super::BarredList;
    use crate::cases::walk::list_in_turn;
    use crate::cases::Random;
    use crate::{pattern, Condition};

    const CONDITIONS: [Condition; 2] = [Condition::First, Condition::Second];

    /// How many patterns a list has.
    fn patterns(labels: &[u8]) -> usize {
        let n = labels.len();
        let mut count = 0;
        for i in 0..n {
            for j in i + 1..n {
                for k in j + 1..n {
                    for l in k + 1..n {
                        let four = [i, j, k, l].map(|place| labels[place]);
                        count += usize::from(Condition::met_by(four).is_some());
                    }
                }
            }
        }
        count
    }

    /// Holds a list of `n` labels to the definitions, and so many patterns.
    fn check(list: &BarredList, n: usize, count: usize) {
        assert_eq!(list.labels.len(), n);
        for list in [list, &list.counted_down()] {
            let labels = &list.labels;
            assert_eq!(pattern(labels), Ok(Some(list.first)), "{labels:?}");
            assert_eq!(patterns(labels), count, "{labels:?}");
        }
    }

    #[test]
    fn planted_patterns_are_the_only_ones() {
        let mut random = Random::from_seed(131);
        for round in 0..600 {
            let condition = CONDITIONS[round % 2];
            let n = random.between(2, 24);
            let baxter = list_in_turn(n, round / 2, &mut random).labels;
            let place = random.below(n);
            check(
                &BarredList::planted(&baxter, place, condition),
                n + BarredList::MORE,
                1,
            );
            let first = random.below(n - 1);
            let places = [first, random.between(first + 1, n - 1)];
            check(
                &BarredList::planted_twice(&baxter, places, condition),
                n + 2 * BarredList::MORE,
                2,
            );
        }
    }

    #[test]
    fn patterns_at_the_end_and_after_long_ways() {
        let mut random = Random::from_seed(132);
        for round in 0..300 {
            let condition = CONDITIONS[round % 2];
            let n = random.between(4, 32);
            let list = BarredList::at_the_end(n, condition, round / 2, &mut random);
            check(&list, n, 1);
            assert_eq!(usize::from(list.first.l), n);
            let list = BarredList::after_long_ways(n, condition, &mut random);
            check(&list, n, 1);
        }
    }

    #[test]
    fn blocks_of_any_width_behind_any_number_of_rising_labels() {
        for (rising, width) in (0..5).flat_map(|rising| (1..9).map(move |width| (rising, width))) {
            let list = BarredList::in_blocks(rising, width);
            let [rising, width] = [rising, width].map(usize::from);
            check(&list, rising + 3 * width + 1, width * width);
        }
    }

    #[test]
    fn long_ways_are_long() {
        let mut random = Random::from_seed(133);
        for condition in CONDITIONS {
            let list = BarredList::after_long_ways(255, condition, &mut random);
            let place = |label: u8| {
                let place = list.labels.iter().position(|&at| at == label);
                place.expect("each label is there")
            };
            let ways = (1..255).map(|label| place(label).abs_diff(place(label + 1)));
            let total: usize = ways.sum();
            assert!(total > 255 * 255 / 3, "{total}");
            assert!((90..165).contains(&list.first.i), "{:?}", list.first);
        }
    }
}
