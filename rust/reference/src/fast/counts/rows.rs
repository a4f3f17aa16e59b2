//! Rows of numbers of walks: those with 0 to 7 runs above the current one.

use std::array::from_fn;
use std::hint::black_box;
use std::ops::Add;

/// How many walks end with q = 0, 1, up to 7.
pub type Row<N> = [N; 8];

/// A number of walks.
pub trait Number: Copy + Default + Add<Output = Self> {}

impl Number for u16 {}

impl Number for u32 {}

/// The sums of the numbers of two rows.
#[inline(always)]
pub fn sum<N: Number>(a: Row<N>, b: Row<N>) -> Row<N> {
    from_fn(|q| a[q] + b[q])
}

/// A row of zeros, of which the compiler does not know that. Else it would find it
/// a good idea to move the numbers of [`risen`] and [`fallen`] one by one, which
/// takes twice as long as all at once.
#[inline(always)]
pub fn empty<N: Number>() -> Row<N> {
    black_box([N::default(); 8])
}

/// The walks of a row after a rise, each of which goes to q and to q − 1. `none` is
/// [`empty`].
#[inline(always)]
pub fn risen<N: Number>(row: Row<N>, none: Row<N>) -> Row<N> {
    let [_, a, b, c, d, e, f, g] = row;
    sum(row, [a, b, c, d, e, f, g, none[0]])
}

/// The walks of a row after a fall, each of which goes to q and to q + 1. `none` is
/// [`empty`].
#[inline(always)]
pub fn fallen<N: Number>(row: Row<N>, none: Row<N>) -> Row<N> {
    let [a, b, c, d, e, f, g, _] = row;
    sum(row, [none[7], a, b, c, d, e, f, g])
}
