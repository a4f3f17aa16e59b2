//! "Pattern".
//!
//! Both conditions tie d to a. So for each i and each condition there is one l
//! at most, and the places by label, which show what stands twice, tell it.
//!
//! Seen from the label at i, each label after it is above or below. Let x be
//! the first place of a label on the other side than the one at i + 1, and y
//! the first place after x of one on the side of i + 1 again. The first pattern
//! from i on is at i, i + 1, x and l, if the l of that condition is behind x.
//! Else it is at i, x, y and l, if the l of the other condition is behind y.
//! Else no pattern begins at i.
//!
//! In most lists that have patterns one begins at the first place or soon after
//! it, and a few labels decide. If they do not, [`first_place`] goes over the
//! whole list, in a time that depends on the number of labels alone.

mod first_place;

use crate::{Condition, Pattern, Refusal};
use first_place::first_place;

/// Places that are looked at one by one.
const TRIES: usize = 3;

/// Labels that are looked at from there, before the whole list is gone over.
const LOOKS: usize = 64;

/// No place: the last one is 254.
const NOWHERE: u8 = 255;

/// Pattern, with the answers of [`crate::pattern`].
///
/// # Errors
///
/// As there.
// Not inlined, so that a benchmark pays for a call as with a library.
#[inline(never)]
pub fn pattern(labels: &[u8]) -> Result<Option<Pattern>, Refusal> {
    let n = u8::try_from(labels.len()).map_err(|_| Refusal::ListLength)?;
    match n {
        0 => Err(Refusal::ListLength),
        // Small stores take less time to clear.
        1..=62 => {
            let places = places_of_few(n, labels).ok_or_else(|| refusal(n, labels))?;
            Ok(find::<1, 64>(labels, &places))
        }
        63.. => {
            let places = places_of_many(n, labels).ok_or_else(|| refusal(n, labels))?;
            Ok(find::<4, 256>(labels, &places))
        }
    }
}

/// The places by label of up to 62 labels, if they are 1 to n, each once. 0 and
/// n + 1 are at place 0, behind no other one.
#[inline(always)]
fn places_of_few(n: u8, labels: &[u8]) -> Option<[u8; 64]> {
    let mut places = [0; 64];
    let (mut seen, mut bits) = (0, 0);
    for (place, &label) in labels.iter().enumerate() {
        places[usize::from(label % 64)] = place as u8;
        seen |= 1 << (label % 64);
        bits |= label;
    }
    let all: u64 = (2 << n) - 2;
    (seen == all && bits < 64).then_some(places)
}

/// As [`places_of_few`], for up to 255 labels. If each of 1 to n has a place, no
/// place is left for any other entry.
#[inline(always)]
fn places_of_many(n: u8, labels: &[u8]) -> Option<[u8; 256]> {
    let mut places = [NOWHERE; 256];
    for (place, &label) in labels.iter().enumerate() {
        places[usize::from(label)] = place as u8;
    }
    let mut lacks = false;
    for (label, &place) in places.iter().enumerate() {
        lacks |= place == NOWHERE && (label as u8).wrapping_sub(1) < n;
    }
    places[0] = 0;
    places[usize::from(n.wrapping_add(1))] = 0;
    (!lacks).then_some(places)
}

/// Which of the two it is, for a list with one of the causes 6 and 7.
#[cold]
fn refusal(n: u8, labels: &[u8]) -> Refusal {
    if labels.iter().all(|label| (1..=n).contains(label)) {
        Refusal::LabelTwice
    } else {
        Refusal::LabelOutside
    }
}

/// The first pattern of a list with these places by label. So many words have a
/// bit for each place.
#[inline(always)]
fn find<const WORDS: usize, const SIZE: usize>(
    labels: &[u8],
    places: &[u8; SIZE],
) -> Option<Pattern> {
    let mut looks = 0;
    // No pattern begins at one of the last three places.
    for i in 0..labels.len().saturating_sub(3) {
        if i == TRIES || looks > LOOKS {
            let first = first_place::<WORDS, SIZE>(labels.len(), places)?;
            return from_place(labels, places, first, &mut looks);
        }
        let found = from_place(labels, places, i, &mut looks);
        if found.is_some() {
            return found;
        }
    }
    None
}

/// The first pattern that begins at a place, which is not the last one. Counts
/// the labels that are looked at.
#[inline(always)]
fn from_place<const SIZE: usize>(
    labels: &[u8],
    places: &[u8; SIZE],
    i: usize,
    looks: &mut usize,
) -> Option<Pattern> {
    let &[a, next, ..] = &labels[i..] else {
        return None;
    };
    // With all bits turned over, what is below is above.
    let turned = if next < a { 0xff } else { 0 };
    let a = a ^ turned;
    let place = |label: u8| usize::from(places[usize::from(label ^ turned) % SIZE]);
    let (l, other_l) = (place(a.wrapping_add(1)), place(a.wrapping_sub(1)));
    let end = l.max(other_l);
    if end < i + 3 {
        return None;
    }
    let x = first_with(labels, i + 2, end, |label| label ^ turned < a);
    *looks += x - i;
    if x < l {
        return Some(named(turned == 0, [i, i + 1, x, l]));
    }
    if x + 1 >= other_l {
        return None;
    }
    let y = first_with(labels, x + 1, other_l, |label| label ^ turned > a);
    *looks += y - x;
    (y < other_l).then(|| named(turned != 0, [i, x, y, other_l]))
}

/// The first place from `start` on whose label is as wanted, or `end`.
#[inline(always)]
fn first_with(labels: &[u8], start: usize, end: usize, wanted: impl Fn(u8) -> bool) -> usize {
    let found = labels[start..end].iter().position(|&label| wanted(label));
    found.map_or(end, |way| start + way)
}

/// The pattern at these places.
fn named(is_first: bool, places: [usize; 4]) -> Pattern {
    let [i, j, k, l] = places.map(|place| place as u8 + 1);
    let condition = if is_first {
        Condition::First
    } else {
        Condition::Second
    };
    Pattern {
        condition,
        i,
        j,
        k,
        l,
    }
}

#[cfg(test)]
mod tests {
    use crate::cases::barred::BarredList;
    use crate::cases::walk::{list_in_turn, some_count, Walked};
    use crate::cases::{each_permutation, every_list, Random};
    use crate::{fast, pattern, Condition};

    const CONDITIONS: [Condition; 2] = [Condition::First, Condition::Second];

    /// Compares the two versions.
    fn compare(labels: &[u8]) {
        assert_eq!(fast::pattern(labels), pattern(labels), "{labels:?}");
    }

    /// Compares with what is known.
    fn expect(list: &BarredList) {
        for list in [list, &list.counted_down()] {
            let labels = &list.labels;
            assert_eq!(fast::pattern(labels), Ok(Some(list.first)), "{labels:?}");
        }
    }

    #[test]
    fn agrees_with_the_definitions_on_every_permutation_of_up_to_8() {
        for n in 1..=8 {
            each_permutation(n, compare);
        }
    }

    #[test]
    fn agrees_with_the_definitions_on_every_list_of_up_to_5_over_0_to_6() {
        for length in 0..=5 {
            every_list(6, length).for_each(|labels| compare(&labels));
        }
    }

    #[test]
    fn agrees_with_the_definitions_on_lists_with_a_few_labels_traded() {
        let mut random = Random::from_seed(141);
        for round in 0..6_000 {
            let n = random.between(2, 36);
            let mut labels = list_in_turn(n, round, &mut random).labels;
            for _ in 0..round % 5 {
                labels.swap(random.below(n), random.below(n));
            }
            compare(&labels);
        }
    }

    /// The stores are others from 63 labels on.
    #[test]
    fn agrees_with_the_definitions_on_lists_of_any_length_with_damage() {
        let mut random = Random::from_seed(142);
        for n in (1..=255).chain([256, 257, 300, 511, 512, 65_536]) {
            let mut labels: Vec<u8> = (1..=255).cycle().take(n).collect();
            random.shuffle(&mut labels);
            compare(&labels);
            labels[random.below(n)] = labels[random.below(n)];
            compare(&labels);
            for outside in [0, (n as u8).wrapping_add(1), 64, 128, 192, 255] {
                let place = random.below(n);
                let before = std::mem::replace(&mut labels[place], outside);
                compare(&labels);
                labels[place] = before;
            }
        }
    }

    #[test]
    fn finds_what_is_planted_in_lists_of_up_to_255_labels() {
        let mut random = Random::from_seed(143);
        for round in 0..4_000 {
            let condition = CONDITIONS[round % 2];
            let n = some_count(&mut random).min(252);
            let Walked { labels, .. } = list_in_turn(n, round / 2, &mut random);
            assert_eq!(fast::pattern(&labels), Ok(None), "{labels:?}");
            expect(&BarredList::planted(&labels, random.below(n), condition));
            let n = n + BarredList::MORE;
            expect(&BarredList::at_the_end(n, condition, round, &mut random));
            expect(&BarredList::after_long_ways(n, condition, &mut random));
        }
    }

    #[test]
    fn finds_blocks_of_every_width() {
        for width in 1..=84 {
            for rising in 0..=254 - 3 * width {
                expect(&BarredList::in_blocks(rising, width));
            }
        }
    }
}
