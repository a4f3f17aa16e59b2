//! Inputs of "Labels in".

use crate::size::{by_definitions, capacities, some_walk};
use compare::label_damage::{put_a_label_outside, repeat_a_label, two_places};
use compare::records::record_length;
use compare::Tally;
use reference::cases::Random;

/// Lists with damage for each Baxter list.
const DAMAGED: usize = 3;

/// Lists of so many labels are always held to the definitions.
const SHORT: usize = 16;

/// Compares a Baxter list, and the same list with damage.
pub fn compare_some(tally: &mut Tally, random: &mut Random) {
    let list = some_walk(random).labels;
    compare(tally, &list, random);
    for _ in 0..DAMAGED {
        compare(tally, &damaged(&list, random), random);
    }
}

/// Compares a list in a slice of some length.
fn compare(tally: &mut Tally, labels: &[u8], random: &mut Random) {
    let [capacity] = capacities([record_length(labels.len())], random);
    let _ = if by_definitions(labels.len(), SHORT, random) {
        tally.labels_in(labels, capacity)
    } else {
        tally.labels_in_quickly(labels, capacity)
    };
}

/// A list with damage, or sometimes random bytes.
pub fn damaged(list: &[u8], random: &mut Random) -> Vec<u8> {
    if random.below(16) == 0 {
        let length = random.between(0, 300);
        return (0..length).map(|_| random.byte()).collect();
    }
    let mut labels = list.to_vec();
    for _ in 0..random.pick(&[1, 1, 1, 2, 3]) {
        damage(&mut labels, random);
    }
    labels
}

/// Does some damage.
fn damage(labels: &mut Vec<u8>, random: &mut Random) {
    if labels.len() < 2 {
        return lengthen(labels, random);
    }
    let n = labels.len();
    let (one, other) = two_places(labels, random);
    match random.below(12) {
        0 | 1 => labels.swap(one, other),
        2 | 3 => labels.swap(one, (one + 1).min(n - 1)),
        4 | 5 => {
            let label = labels.remove(one);
            labels.insert(other, label);
        }
        6 => repeat_a_label(labels, random),
        7 => put_a_label_outside(labels, random),
        8 => labels[one] = labels[one].wrapping_add(random.pick(&[1, 255, 128])),
        9 => labels.truncate(random.pick(&[n - 1, one, one, 0])),
        10 => lengthen(labels, random),
        _ => random.shuffle(labels),
    }
}

/// Adds some entries: the next labels, or any.
fn lengthen(labels: &mut Vec<u8>, random: &mut Random) {
    let any = random.below(2) == 0;
    for _ in 0..random.pick(&[1, 1, 1, 2, 8, 300]) {
        let next = (labels.len() + 1) as u8;
        labels.push(if any { random.byte() } else { next });
    }
}
