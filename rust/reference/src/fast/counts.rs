//! "Plan count" and "Plan total", by walks that meet in the middle.
//!
//! A record of n rooms is a walk of n − 1 steps, one a triple. With p runs below
//! the current one and q above it, a rise goes to p or p + 1 and to q or q − 1, a
//! fall to p or p − 1 and to q or q + 1, and none goes below 0. The walk begins
//! and ends with p = q = 0. Backwards a rise is a fall, so the second half of a
//! walk is, backwards, a walk that begins there too. So walks of up to 8 steps are
//! counted, by where they end, and then two that end at one place are put
//! together: see [`by_rises`] and, where the rises do not matter, [`in_all`].
//!
//! Numbers of walks stand in rows of eight, by q, which are added as a whole; see
//! [`rows`]. The one walk of 8 steps that ends with q = 8 has no place there and
//! is thought of at the end.
//!
//! What else was tried, in nanoseconds for 17 rooms, with 8 rises or in all:
//!
//! | by                                      | 8 rises | in all |
//! |-----------------------------------------|---------|--------|
//! | lists that grow, with running sums      |   1,190 |  1,720 |
//! | walks of 16 steps, none too far to end  |   1,900 |        |
//! | walks that meet, number by number       |   1,920 |    380 |
//! | walks that meet, rows with an empty rim |     760 |    124 |
//! | walks that meet, rows as here           |     275 |    105 |
//!
//! Number by number, each step cleared the next numbers first. With products of
//! whole rows, in two halves, the last one takes 335 for 8 rises.
//!
//! Less time still, 25 and 45, is taken by what follows from the formula in 000:
//! the ratio of a count to the one before, and a recurrence of three terms for the
//! totals. But those only say the formula in other words.

mod by_rises;
mod in_all;
mod rows;

use crate::Refusal;
use by_rises::Walks;
use in_all::AllWalks;

/// Plan count, with the answers of [`crate::plan_count()`].
///
/// # Errors
///
/// As there.
// Not inlined, so that a benchmark pays for a call as with a library.
#[inline(never)]
pub fn plan_count(n: u8, rises: u8) -> Result<u64, Refusal> {
    let steps = steps(n)?;
    if rises >= n {
        return Ok(0);
    }
    let rises = usize::from(rises);
    let mut walks = Walks::start();
    for _ in 0..steps / 2 {
        walks.step();
    }
    let met = if steps % 2 == 1 {
        let fewer = walks;
        walks.step();
        fewer.meet(&walks, rises)
    } else {
        walks.meet(&walks, rises)
    };
    // Two of 8 steps may meet at q = 8: one that only falls and, backwards, another
    // one, so that there are 8 rises.
    Ok(met + u64::from(steps == 16 && rises == 8))
}

/// Plan total, with the answers of [`crate::plan_total()`].
///
/// # Errors
///
/// As there.
#[inline(never)]
pub fn plan_total(n: u8) -> Result<u64, Refusal> {
    let steps = steps(n)?;
    let mut walks = AllWalks::start();
    for _ in 0..steps / 2 {
        walks.step();
    }
    let met = if steps % 2 == 1 {
        let fewer = walks;
        walks.step();
        fewer.meet(&walks)
    } else {
        walks.meet(&walks)
    };
    // Two of 8 steps may meet at q = 8.
    Ok(met + u64::from(steps == 16))
}

/// The steps of the walks for n rooms.
fn steps(n: u8) -> Result<usize, Refusal> {
    if !(1..=17).contains(&n) {
        return Err(Refusal::NotCounted);
    }
    Ok(usize::from(n - 1))
}

#[cfg(test)]
mod tests;
