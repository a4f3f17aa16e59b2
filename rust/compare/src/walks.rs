//! Random walks as cases.

use crate::tally::Tally;
use reference::cases::walk::{list_in_turn, random_list, some_count, Walked};

/// Random walks of any length.
const WALKS: usize = 20_000;

/// Random walks of each length.
const WALKS_OF_A_LENGTH: usize = 8;

impl Tally {
    /// Compares random walks of any length and then some of each length, and
    /// prints the counts of both, each by its name and from its seed.
    /// `compare` compares a walk in three cases, in one of which a slice is
    /// too short.
    ///
    /// # Panics
    ///
    /// As `compare`, or if the counts are others.
    pub fn random_walks(
        any_length: (&'static str, u64),
        each_length: (&'static str, u64),
        compare: impl Fn(&mut Self, &Walked),
    ) {
        let (name, seed) = any_length;
        Self::in_threes(name, seed, WALKS, |tally, random, round| {
            let n = some_count(random);
            compare(tally, &list_in_turn(n, round, random));
        });
        let (name, seed) = each_length;
        let walks = 255 * WALKS_OF_A_LENGTH;
        Self::in_threes(name, seed, walks, |tally, random, round| {
            let n = 1 + round / WALKS_OF_A_LENGTH;
            compare(tally, &random_list(n, random));
        });
    }
}
