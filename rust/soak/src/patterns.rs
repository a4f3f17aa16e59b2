//! Inputs of "Pattern".

use crate::labels::damaged;
use crate::size::{by_definitions, some_walk};
use compare::label_damage::swap_until_barred;
use compare::Tally;
use reference::cases::barred::BarredList;
use reference::cases::Random;
use reference::{Condition, Pattern, Refusal};

/// Lists with damage for each Baxter list.
const DAMAGED: usize = 2;

/// Lists of so many labels are always held to the definitions.
const SHORT: usize = 16;

/// Compares a Baxter list, one with a pattern, and lists with damage. The first
/// one must have no pattern, and the second one some.
pub fn compare_some(tally: &mut Tally, random: &mut Random) {
    let list = some_walk(random).labels;
    let answer = compare(tally, &list, random);
    assert_eq!(answer, Ok(None), "{list:?}");
    let barred = barred(&list, random);
    let answer = compare(tally, &barred, random);
    assert!(answer.is_ok_and(|named| named.is_some()), "{barred:?}");
    for _ in 0..DAMAGED {
        let _ = compare(tally, &damaged(&list, random), random);
    }
}

/// Compares a list. All positions of long ones are searched once in a long
/// while: for twice as many labels that takes up to 16 times as long.
fn compare(
    tally: &mut Tally,
    labels: &[u8],
    random: &mut Random,
) -> Result<Option<Pattern>, Refusal> {
    let n = labels.len();
    if by_definitions(n * n / SHORT, SHORT, random) {
        tally.pattern(labels)
    } else {
        tally.pattern_quickly(labels)
    }
}

/// A list with a pattern: planted in a Baxter list, once or twice, or come by
/// changing its labels about.
fn barred(list: &[u8], random: &mut Random) -> Vec<u8> {
    let (n, place) = (list.len(), random.below(list.len()));
    let condition = random.pick(&[Condition::First, Condition::Second]);
    match random.below(4) {
        0 | 1 if (4..=255).contains(&n) => {
            let mut labels = list.to_vec();
            swap_until_barred(&mut labels, random);
            labels
        }
        2 if place > 0 && n <= 249 => {
            let places = [random.below(place), place];
            BarredList::planted_twice(list, places, condition).labels
        }
        _ if n <= 252 => BarredList::planted(list, place, condition).labels,
        _ => BarredList::after_long_ways(n, condition, random).labels,
    }
}
