//! Walks whose rises do not matter.

use super::rows::{empty, fallen, risen, sum, Row};

/// How many walks there are of some number of steps, at most 8: those with p runs
/// below are in row p. The last row stays empty.
///
/// No number is above 146,160.
#[derive(Clone, Copy)]
pub struct AllWalks {
    rows: [Row<u32>; 10],
    none: Row<u32>,
    steps: usize,
}

impl AllWalks {
    /// The walk of no step.
    #[inline(always)]
    pub fn start() -> Self {
        let mut rows = [[0; 8]; 10];
        rows[0][0] = 1;
        Self {
            rows,
            none: empty(),
            steps: 0,
        }
    }

    /// One step more. A rise goes to p and to p + 1, a fall to p and to p − 1.
    #[inline(always)]
    pub fn step(&mut self) {
        self.steps += 1;
        let none = self.none;
        let rows = &mut self.rows;
        let (mut risen_below, mut fallen_here) = (none, fallen(rows[0], none));
        for p in 0..=self.steps {
            let risen_here = risen(rows[p], none);
            let fallen_above = fallen(rows[p + 1], none);
            rows[p] = sum(sum(risen_here, risen_below), sum(fallen_here, fallen_above));
            (risen_below, fallen_here) = (risen_here, fallen_above);
        }
    }

    /// How many walks go these steps first, and then those of the others,
    /// backwards.
    #[inline(always)]
    pub fn meet(&self, others: &Self) -> u64 {
        let pairs = self.rows[..=self.steps].iter().zip(&others.rows);
        let numbers = pairs.flat_map(|(a, b)| a.iter().zip(b));
        numbers.map(|(&a, &b)| u64::from(a) * u64::from(b)).sum()
    }
}
