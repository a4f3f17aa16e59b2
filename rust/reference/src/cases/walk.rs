//! Baxter lists of any length, and random ones, made along the sheet's table
//! of eight steps.
//!
//! A walk is a list of triples that meets the "Needs" column at every step and
//! ends with one run. Each walk is one Baxter list and each Baxter list is one
//! walk, so lists that are not separable come up as they should.

use super::Random;
use crate::{record_of, Runs, Triple, TRIPLES};

/// A Baxter list and the triples of the walk that it was made by.
#[derive(Clone, Debug)]
pub struct Walked {
    /// The label list.
    pub labels: Vec<u8>,
    /// The triples of positions 2 to n.
    pub triples: Vec<Triple>,
}

impl Walked {
    /// The labels 1 to `n` rising: each goes on top of the only run.
    #[must_use]
    pub fn rising(n: u8) -> Self {
        Self {
            labels: (1..=n).collect(),
            triples: vec![[false, true, false]; usize::from(n) - 1],
        }
    }

    /// The labels 1 to `n` falling: each goes under the only run.
    #[must_use]
    pub fn falling(n: u8) -> Self {
        Self {
            labels: (1..=n).rev().collect(),
            triples: vec![[true, false, true]; usize::from(n) - 1],
        }
    }

    /// The two lists that have as many runs on the way as there can be: every
    /// second label, and then the gaps filled from the near end.
    #[must_use]
    pub fn with_128_runs() -> [Self; 2] {
        let odd = (1..=255).step_by(2);
        let even = (2..=254).step_by(2);
        [
            // 1 3 5 .. 255, then 254 252 .. 2: 000 each time, then 111.
            Self {
                labels: odd.clone().chain(even.clone().rev()).collect(),
                triples: halves(0b000, 0b111),
            },
            // 255 253 .. 1, then 2 4 .. 254: 001 each time, then 110.
            Self {
                labels: odd.rev().chain(even).collect(),
                triples: halves(0b001, 0b110),
            },
        ]
    }

    /// The record of the walk.
    ///
    /// # Panics
    ///
    /// If there are over 255 labels.
    #[must_use]
    pub fn record(&self) -> Vec<u8> {
        let kind = u8::try_from(self.labels.len()).expect("at most 255 labels");
        record_of(kind, &self.triples)
    }
}

/// The triples of 255 positions, 127 of one kind and then 127 of another, each
/// by its number.
#[must_use]
pub fn halves(first: u8, then: u8) -> Vec<Triple> {
    let bits = |number: u8| [4, 2, 1].map(|worth| number & worth != 0);
    [vec![bits(first); 127], vec![bits(then); 127]].concat()
}

/// A count of labels: small ones and those near 255 come up often.
pub fn some_count(random: &mut Random) -> usize {
    match random.below(4) {
        0 => random.between(1, 20),
        1 => random.between(240, 255),
        _ => random.between(1, 255),
    }
}

/// A count of labels for input that is made without a plan: mostly a small one,
/// since long input of that kind is hardly ever accepted.
pub fn mostly_small_count(random: &mut Random) -> u8 {
    random.pick(&[1, 2, 3, 4, 5, 6, 7, 9, 12, 40, 254, 255])
}

/// A record of any triples, which need not be a walk: in one round all kinds, in
/// the next one only a few of them.
pub fn any_record(round: usize, random: &mut Random) -> Vec<u8> {
    let n = mostly_small_count(random);
    let kinds = random.between(1, 3);
    let choices: Vec<_> = match round % 2 {
        0 => TRIPLES.to_vec(),
        _ => (0..kinds).map(|_| random.pick(&TRIPLES)).collect(),
    };
    let triples: Vec<_> = (1..n).map(|_| random.pick(&choices)).collect();
    record_of(n, &triples)
}

/// In one round a [`random_list`], in the next one a [`biased_list`].
pub fn list_in_turn(n: usize, round: usize, random: &mut Random) -> Walked {
    match round % 2 {
        0 => random_list(n, random),
        _ => biased_list(n, random),
    }
}

/// A random Baxter list of `n` labels, 1 to 255, all steps equally likely.
pub fn random_list(n: usize, random: &mut Random) -> Walked {
    weighted_list(n, [1; 8], random)
}

/// A random Baxter list of `n` labels, 1 to 255, that prefers some steps over
/// others, so that many lists together have long runs, many runs, long rises.
pub fn biased_list(n: usize, random: &mut Random) -> Walked {
    let weights = [(); 8].map(|()| random.pick(&[1, 1, 1, 2, 4, 12]));
    weighted_list(n, weights, random)
}

/// A random walk whose steps come up in proportion to their weights, among
/// those that lead to an end.
fn weighted_list(n: usize, weights: [usize; 8], random: &mut Random) -> Walked {
    let mut runs = Runs::start();
    let mut triples = Vec::new();
    for to_come in (0..n - 1).rev() {
        let mut choices = Vec::new();
        for (triple, weight) in TRIPLES.into_iter().zip(weights) {
            if leads_to_an_end(&runs, triple, to_come) {
                choices.extend(std::iter::repeat_n(triple, weight));
            }
        }
        let triple = random.pick(&choices);
        runs.step(triple);
        triples.push(triple);
    }
    Walked {
        labels: runs.labels(),
        triples,
    }
}

/// Calls `visit` with the triples of every walk of `n` labels, at least 1.
pub fn each_walk(n: usize, mut visit: impl FnMut(&[Triple])) {
    go_on(&Runs::start(), &mut Vec::new(), n - 1, &mut visit);
}

/// Calls `visit` with every walk that begins with the given steps, of which
/// these are the runs, and has so many steps to come.
fn go_on(
    runs: &Runs,
    triples: &mut Vec<Triple>,
    to_come: usize,
    visit: &mut impl FnMut(&[Triple]),
) {
    if to_come == 0 {
        return visit(triples);
    }
    for triple in TRIPLES {
        if leads_to_an_end(runs, triple, to_come - 1) {
            let mut runs = runs.clone();
            runs.step(triple);
            triples.push(triple);
            go_on(&runs, triples, to_come - 1, visit);
            triples.pop();
        }
    }
}

/// Whether the table allows a step, and it leaves no more runs to be joined
/// than there are positions to come: a step joins at most one run to another.
fn leads_to_an_end(runs: &Runs, triple: Triple, to_come: usize) -> bool {
    runs.have_what_it_needs(triple) && others_after(runs, triple) <= to_come
}

/// The number of runs beside the current one after a step that has what it
/// needs.
#[must_use]
pub fn others_after(runs: &Runs, triple: Triple) -> usize {
    let others = runs.p() + runs.q();
    match triple.map(u8::from) {
        [0, 0, _] => others + 1,
        [1, 1, _] => others - 1,
        _ => others,
    }
}

#[cfg(test)]
mod tests {
    use super::{biased_list, each_walk, random_list, Walked};
    use crate::cases::{Random, BAXTER_NUMBERS};
    use crate::{is_barred, labels_of, triples};
    use std::collections::HashSet;

    #[test]
    fn every_baxter_list_of_5_labels_comes_up_and_no_other() {
        let mut random = Random::from_seed(31);
        let mut met = HashSet::new();
        for _ in 0..20_000 {
            met.insert(random_list(5, &mut random).labels);
        }
        assert!(met.iter().all(|labels| !is_barred(labels)));
        assert_eq!(met.len(), 92, "the Baxter number for 5");
    }

    #[test]
    fn every_walk_of_up_to_8_labels_comes_up_once() {
        for (n, number) in (1..=8).zip(BAXTER_NUMBERS) {
            let mut walks = HashSet::new();
            each_walk(n, |triples| {
                assert!(labels_of(triples).is_ok_and(|labels| labels.len() == n));
                assert!(walks.insert(triples.to_vec()), "{triples:?}");
            });
            assert_eq!(walks.len(), number, "n = {n}");
        }
    }

    /// Holds a walk of `n` labels to the definitions.
    fn check(walked: &Walked, n: usize) {
        let mut sorted = walked.labels.clone();
        sorted.sort_unstable();
        assert!(sorted.into_iter().map(usize::from).eq(1..=n));
        assert_eq!(triples(&walked.labels), walked.triples);
        assert!(!is_barred(&walked.labels));
    }

    #[test]
    fn walks_have_the_triples_of_their_labels() {
        let mut random = Random::from_seed(32);
        for n in 1..=255u8 {
            check(&Walked::rising(n), n.into());
            check(&Walked::falling(n), n.into());
            check(&random_list(n.into(), &mut random), n.into());
            check(&biased_list(n.into(), &mut random), n.into());
        }
        for walked in Walked::with_128_runs() {
            check(&walked, 255);
        }
    }
}
