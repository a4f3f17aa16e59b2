//! What damage to records and to room lists has in common.

use reference::Refusal;
use std::iter::repeat_n;

/// The first refusal, of those in the sheet's order, whose cause is there.
pub(crate) fn first_cause<const CAUSES: usize>(
    order: [Refusal; CAUSES],
    are_there: [bool; CAUSES],
) -> Option<Refusal> {
    let mut causes = order.into_iter().zip(are_there);
    let first = causes.find(|(_, is_there)| *is_there);
    first.map(|(refusal, _)| refusal)
}

/// Every damage so many times.
pub fn each_times<D: Clone>(
    damages: impl Iterator<Item = D>,
    times: usize,
) -> impl Iterator<Item = D> {
    damages.flat_map(move |damage| repeat_n(damage, times))
}
