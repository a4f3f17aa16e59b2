//! What several of the calls rest on.

use std::hint::select_unpredictable;

/// The body of the longest record.
pub(super) const BODY: usize = 96;

/// Swaps the two values if `condition` holds, without a branch.
pub(super) fn swap_if<T: Copy>(condition: bool, one: &mut T, other: &mut T) {
    (*one, *other) = (
        select_unpredictable(condition, *other, *one),
        select_unpredictable(condition, *one, *other),
    );
}
