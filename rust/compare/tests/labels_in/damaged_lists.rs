//! Baxter lists with damage: each refusal for its own cause, and in the
//! order 1, 6, 7, 8, 15 where there are several.

use compare::label_damage::{barred, outside, repeated, sound, two_places};
use compare::records::record_length;
use compare::Tally;
use reference::cases::Random;
use reference::Refusal;

/// Record slices that are empty, just too short, just right and too long.
fn capacities(n: usize) -> [usize; 4] {
    let needed = record_length(n);
    [0, needed - 1, needed, 100]
}

/// A name, a seed, the refusal and the damaged lists that have it.
type Damaged = (&'static str, u64, Refusal, fn(&mut Random) -> Vec<u8>);

/// Damage anywhere, alone and beside damage that is named later.
const DAMAGED: [Damaged; 6] = [
    ("a label outside", 11, Refusal::LabelOutside, |random| {
        outside(sound(random), random)
    }),
    ("a repeated label", 12, Refusal::LabelTwice, |random| {
        repeated(sound(random), 1, random)
    }),
    ("a barred pattern", 13, Refusal::BarredPattern, barred),
    ("7 before 8", 14, Refusal::LabelTwice, |random| {
        repeated(barred(random), 1, random)
    }),
    ("6 before 8", 15, Refusal::LabelOutside, |random| {
        outside(barred(random), random)
    }),
    ("6 before 7 and 8", 16, Refusal::LabelOutside, |random| {
        let labels = barred(random);
        let times = random.between(1, 4);
        outside(repeated(labels, times, random), random)
    }),
];

#[test]
fn a_label_outside_is_6_else_a_repeated_one_7_else_a_barred_pattern_8() {
    const LISTS: usize = 3_000;
    for (name, seed, refusal, damaged) in DAMAGED {
        let tally = Tally::of_rounds(name, seed, 0..LISTS, |tally, random, _| {
            let labels = damaged(random);
            for capacity in capacities(labels.len()) {
                tally.expect_refusal(&labels, capacity, refusal);
            }
        });
        tally.finish(4 * LISTS);
    }
}

#[test]
fn damage_at_the_last_place_beats_damage_at_the_first() {
    let mut tally = Tally::new("damage at the ends");
    for n in 5..=255u8 {
        let last = usize::from(n) - 1;

        // 2 4 1 3 at the front is barred; the last label repeats the one before.
        let mut labels: Vec<u8> = (1..=n).collect();
        labels[..4].copy_from_slice(&[2, 4, 1, 3]);
        tally.expect_refusal(&labels, 100, Refusal::BarredPattern);
        labels[last] = labels[last - 1];
        tally.expect_refusal(&labels, 100, Refusal::LabelTwice);
        labels[last] = 0;
        tally.expect_refusal(&labels, 100, Refusal::LabelOutside);

        // The first two labels are the same; the last one is outside.
        let mut labels: Vec<u8> = (1..=n).collect();
        labels[1] = labels[0];
        tally.expect_refusal(&labels, 0, Refusal::LabelTwice);
        labels[last] = n.checked_add(1).unwrap_or(0);
        tally.expect_refusal(&labels, 0, Refusal::LabelOutside);

        // More than 255 entries beat everything.
        labels.resize(256, 0);
        tally.expect_refusal(&labels, 0, Refusal::ListLength);
    }
    tally.finish(251 * 6);
}

/// Two places of a Baxter list: in one round neighbours by position, in the
/// next one neighbours by label, in the third one any.
fn places_to_trade(labels: &[u8], round: usize, random: &mut Random) -> (usize, usize) {
    match round % 3 {
        0 => {
            let place = random.below(labels.len() - 1);
            (place, place + 1)
        }
        1 => {
            let label = random.between(1, labels.len() - 1);
            let place = |wanted| labels.iter().position(|&l| usize::from(l) == wanted);
            let places = (place(label), place(label + 1));
            (places.0.unwrap_or(0), places.1.unwrap_or(0))
        }
        _ => two_places(labels, random),
    }
}

#[test]
fn two_labels_that_trade_places() {
    const LISTS: usize = 6_000;
    let name = "two labels that trade places";
    let tally = Tally::of_rounds(name, 17, 0..LISTS, |tally, random, round| {
        let mut labels = sound(random);
        let (one, other) = places_to_trade(&labels, round, random);
        labels.swap(one, other);
        for capacity in capacities(labels.len()) {
            let _ = tally.labels_in(&labels, capacity);
        }
    });
    // Both outcomes must come up, or the trade would try nothing.
    assert!(tally.accepted() > LISTS / 10);
    tally.expect_often(LISTS, &[Refusal::BarredPattern]);
    tally.finish(4 * LISTS);
}
