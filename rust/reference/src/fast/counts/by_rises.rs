//! Walks by their rises.

use super::rows::{empty, fallen, risen, sum, Row};

/// Planes, and rows of each, for walks of up to 8 steps.
const PLANES: usize = 10;

/// The rows of the walks with some number of rises, by p.
type Plane = [Row<u16>; PLANES];

/// How many walks there are of some number of steps, at most 8: those with i rises
/// and p runs below are in plane i + 1 and row p. The first plane stays empty.
/// Since p is at most i, plane k has k rows, and the one behind them is empty.
///
/// No number is above 64,512.
#[derive(Clone, Copy)]
pub struct Walks {
    planes: [Plane; PLANES],
    none: Row<u16>,
    steps: usize,
}

impl Walks {
    /// The walk of no step.
    #[inline(always)]
    pub fn start() -> Self {
        let mut planes = [[[0; 8]; PLANES]; PLANES];
        planes[1][0][0] = 1;
        Self {
            planes,
            none: empty(),
            steps: 0,
        }
    }

    /// One step more: those with i rises had i − 1 and rose, or had i and fell.
    #[inline(always)]
    pub fn step(&mut self) {
        self.steps += 1;
        let none = self.none;
        for k in (1..self.steps + 2).rev() {
            let (fewer, rest) = self.planes.split_at_mut(k);
            step_to(&mut rest[0], &fewer[k - 1], k, none);
        }
    }

    /// How many walks have so many rises that go these steps first, and then those
    /// of the others, backwards.
    #[inline(always)]
    pub fn meet(&self, others: &Self, rises: usize) -> u64 {
        let first = rises.saturating_sub(others.steps);
        let last = rises.min(self.steps);
        let mut met = 0;
        for i in first..last + 1 {
            // The other rises are falls, backwards.
            let falls = others.steps - (rises - i);
            met += meet_in(&self.planes[i + 1], &others.planes[falls + 1], i + 1);
        }
        met
    }
}

/// Makes the plane with so many rows that of one step more, from itself and from
/// the one with a rise fewer. A rise goes to p and to p + 1, a fall to p and to
/// p − 1.
#[inline(always)]
fn step_to(plane: &mut Plane, fewer: &Plane, rows: usize, none: Row<u16>) {
    let (mut risen_below, mut fallen_here) = (none, fallen(plane[0], none));
    for p in 0..rows {
        let risen_here = risen(fewer[p], none);
        let fallen_above = fallen(plane[p + 1], none);
        plane[p] = sum(sum(risen_here, risen_below), sum(fallen_here, fallen_above));
        (risen_below, fallen_here) = (risen_here, fallen_above);
    }
}

/// How many pairs of walks end at one place, in so many rows of two planes.
#[inline(always)]
fn meet_in(a: &Plane, b: &Plane, rows: usize) -> u64 {
    let mut met = 0;
    for p in 0..rows {
        for q in 0..8 {
            met += u64::from(a[p][q]) * u64::from(b[p][q]);
        }
    }
    met
}
