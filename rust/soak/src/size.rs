//! How large inputs are, how long slices, and which inputs are held to the
//! definitions.

use reference::cases::walk::{list_in_turn, Walked};
use reference::cases::Random;

/// A random Baxter list. Most of them are short, and some as long as can be.
pub fn some_walk(random: &mut Random) -> Walked {
    let n = some_count(random);
    list_in_turn(n, random.below(2), random)
}

/// A count of rooms.
pub fn some_count(random: &mut Random) -> usize {
    match random.below(16) {
        0..=8 => random.between(1, 8),
        9..=13 => random.between(9, 40),
        14 => random.between(41, 255),
        _ => random.between(250, 255),
    }
}

/// Lengths of output slices: in three cases of four long enough, and often
/// just so; else one of them, at least, is not.
pub fn capacities<const SLICES: usize>(
    needed: [usize; SLICES],
    random: &mut Random,
) -> [usize; SLICES] {
    let mut capacities = needed.map(|needed| needed + random.pick(&[0, 0, 0, 1, 2, 7, 100]));
    if random.below(4) == 0 {
        let which = random.below(SLICES);
        let fewer = random.pick(&[1, 1, 1, 2, 3, needed[which] / 2, needed[which]]);
        capacities[which] = needed[which].saturating_sub(fewer.max(1));
    }
    capacities
}

/// Whether an input of `n` entries is held to the definitions too: always if
/// it has at most so many, else once in a while.
pub fn by_definitions(n: usize, short: usize, random: &mut Random) -> bool {
    n <= short || random.below(2 * n) == 0
}
