//! "Groups", by one pass over the record and a way back.
//!
//! Of two rooms the one at the earlier position is left of the other one or
//! below it. So if neither group is wholly before the other one the answer is
//! mixed, and the record is only judged. Else all labels of the earlier group
//! must be smaller than those of the later one, or all larger.
//!
//! No label has to be known for that. The pass judges the record, and keeps how
//! many runs are below the current one and above it at every eighth place; see
//! [`counts`]. On the way back these numbers tell which of the earlier rooms have
//! smaller labels than a later one and which have larger ones, whole stretches at
//! a time; see [`back`]. For a few rooms all of it is in a table; see [`few`].

mod back;
mod counts;
mod few;
mod members;

use super::book::{accepted, padded, refusal_at_the_front};
use super::steps::body_of;
use crate::{Group, Refusal, Side};
use back::Back;
use counts::Counts;
use few::FEW;
use members::{Labels, Members, Parted};

/// Groups, with the answers of [`crate::groups()`].
///
/// # Errors
///
/// As there.
// Not inlined, so that a benchmark pays for a call as with a library.
#[inline(never)]
pub fn groups(record: &[u8], first: &Group, second: &Group) -> Result<Option<Side>, Refusal> {
    let (n, body) = body_of(record)?;
    let [first, second] = [first, second].map(Members::of);
    let Some(parted) = Parted::of(first, second, n) else {
        judge(n, record, body)?;
        return not_parted(n, first, second);
    };
    // Small stores take less time to clear.
    let labels = match n {
        0..=FEW => few::go(n, body, &parted),
        6..=64 => go::<8>(n, record, &parted),
        _ => go::<32>(n, record, &parted),
    };
    let labels = labels.ok_or_else(|| refusal_at_the_front(record))?;
    Ok(parted.side(labels))
}

/// 12 or 13 unless the record of `n` rooms, whose body this is, is accepted.
#[inline(always)]
fn judge(n: usize, record: &[u8], body: &[u8]) -> Result<(), Refusal> {
    if n > FEW {
        return accepted(record, &padded(record)).map(drop);
    }
    let larger = few::larger(n, body);
    larger.map(drop).ok_or_else(|| refusal_at_the_front(record))
}

/// The answer for an accepted record of `n` rooms, if neither group is wholly
/// before the other one.
fn not_parted(n: usize, first: Members, second: Members) -> Result<Option<Side>, Refusal> {
    if first.reach_beyond(n) || second.reach_beyond(n) {
        return Err(Refusal::PositionOutside);
    }
    if first.is_empty() || second.is_empty() {
        return Err(Refusal::EmptyGroup);
    }
    if first.meet(&second) {
        return Err(Refusal::PositionsEqual);
    }
    Ok(None)
}

/// The labels of two groups, unless the record of `n` rooms is not accepted.
#[inline(always)]
fn go<const EIGHTS: usize>(n: usize, record: &[u8], parted: &Parted) -> Option<Labels> {
    let window = padded(record);
    let counts = Counts::<EIGHTS>::of(n, &window)?;
    Some(Back::new(&counts, parted).go())
}

#[cfg(test)]
mod tests;
