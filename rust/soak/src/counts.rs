//! Numbers of rooms and of rises for "Plan count" and "Plan total".

use compare::Tally;
use reference::cases::Random;

/// Asks how many plans of some number of rooms have some number of rises.
pub fn count_some(tally: &mut Tally, random: &mut Random) {
    let n = some_rooms(random);
    let _ = tally.plan_count(n, some_rises(n, random));
}

/// Asks how many plans of some number of rooms there are.
pub fn total_some(tally: &mut Tally, random: &mut Random) {
    let _ = tally.plan_total(some_rooms(random));
}

/// A number of rooms, mostly one whose plans are counted.
fn some_rooms(random: &mut Random) -> u8 {
    let (any, counted) = (random.byte(), 1 + random.byte() % 17);
    match random.below(16) {
        0 => any,
        1 => random.pick(&[0, 17, 18]),
        _ => counted,
    }
}

/// A number of rises, mostly one that plans of n rooms have.
fn some_rises(n: u8, random: &mut Random) -> u8 {
    let any = random.byte();
    match random.below(8) {
        0 => any,
        1 => random.pick(&[n.saturating_sub(1), n, n.saturating_add(1)]),
        _ => any % n.max(1),
    }
}
