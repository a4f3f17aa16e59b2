//! Cases in rounds.

use crate::tally::Tally;
use reference::cases::Random;
use reference::Refusal;
use std::fmt;

/// Does something with random numbers in each round.
pub fn repeat<R>(
    seed: u64,
    rounds: impl IntoIterator<Item = R>,
    mut act: impl FnMut(&mut Random, R),
) {
    let mut random = Random::from_seed(seed);
    for round in rounds {
        act(&mut random, round);
    }
}

impl Tally {
    /// Random cases: `compare` makes and compares those of each round, be it a
    /// number, a count of rooms or a kind of damage.
    #[must_use]
    pub fn of_rounds<R>(
        name: &'static str,
        seed: u64,
        rounds: impl IntoIterator<Item = R>,
        mut compare: impl FnMut(&mut Self, &mut Random, R),
    ) -> Self {
        let mut tally = Self::new(name);
        repeat(seed, rounds, |random, round| {
            compare(&mut tally, random, round);
        });
        tally
    }

    /// As [`Self::of_rounds`], for so many inputs, each of which must be
    /// accepted in two cases and refused in a third one, where a slice is too
    /// short. Prints the counts.
    ///
    /// # Panics
    ///
    /// As `compare`, or if the counts are others.
    pub fn in_threes(
        name: &'static str,
        seed: u64,
        inputs: usize,
        compare: impl FnMut(&mut Self, &mut Random, usize),
    ) {
        Self::of_rounds(name, seed, 0..inputs, compare).finish_in_threes(inputs);
    }

    /// Inputs that must be refused, each with its refusal, in slices of all
    /// lengths up to `longest`: `call` compares a case. Prints the counts.
    ///
    /// # Panics
    ///
    /// As `call`, or if an answer is another.
    pub fn refused_at_every_length<I: fmt::Debug>(
        name: &'static str,
        refused: &[(I, Refusal)],
        longest: usize,
        call: impl Fn(&mut Self, &I, usize) -> Result<usize, Refusal>,
    ) {
        let mut tally = Self::new(name);
        for (input, refusal) in refused {
            for length in 0..=longest {
                let answer = call(&mut tally, input, length);
                assert_eq!(answer, Err(*refusal), "{input:?} into {length}");
            }
        }
        tally.finish(refused.len() * (longest + 1));
    }
}
