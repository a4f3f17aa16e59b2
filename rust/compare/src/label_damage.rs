//! Damage that is done to label lists, and lists that have it.

use reference::cases::walk::biased_list;
use reference::cases::Random;
use reference::is_barred;

/// Two different places of a list, which has two at least.
pub fn two_places(labels: &[u8], random: &mut Random) -> (usize, usize) {
    let one = random.below(labels.len());
    let further = random.between(1, labels.len() - 1);
    (one, (one + further) % labels.len())
}

/// Puts the label of one place at another. There are two places at least.
pub fn repeat_a_label(labels: &mut [u8], random: &mut Random) {
    let (from, to) = two_places(labels, random);
    labels[to] = labels[from];
}

/// Puts 0 or a label above n at some place.
pub fn put_a_label_outside(labels: &mut [u8], random: &mut Random) {
    let n = labels.len();
    let place = random.below(n);
    let above = if n < 255 { n + 1 } else { 0 };
    let entry = match random.below(4) {
        0 => 0,
        1 => above,
        2 if n < 255 => 255,
        _ if n < 255 => random.between(n + 1, 255),
        _ => 0,
    };
    labels[place] = u8::try_from(entry).expect("an entry is a byte");
}

/// Changes labels about until some pattern is barred. There are four at least.
pub fn swap_until_barred(labels: &mut [u8], random: &mut Random) {
    while !is_barred(labels) {
        let (one, other) = (random.below(labels.len()), random.below(labels.len()));
        labels.swap(one, other);
    }
}

/// A Baxter list with room for damage.
pub fn sound(random: &mut Random) -> Vec<u8> {
    let n = match random.below(3) {
        0 => random.between(6, 24),
        1 => random.between(6, 255),
        _ => random.between(250, 255),
    };
    biased_list(n, random).labels
}

/// As [`sound`], but with labels changed about until some pattern is barred.
pub fn barred(random: &mut Random) -> Vec<u8> {
    let mut labels = sound(random);
    swap_until_barred(&mut labels, random);
    labels
}

/// The list with some labels put twice.
pub fn repeated(mut labels: Vec<u8>, times: usize, random: &mut Random) -> Vec<u8> {
    for _ in 0..times {
        repeat_a_label(&mut labels, random);
    }
    labels
}

/// The list with a label outside 1 to n.
pub fn outside(mut labels: Vec<u8>, random: &mut Random) -> Vec<u8> {
    put_a_label_outside(&mut labels, random);
    labels
}
