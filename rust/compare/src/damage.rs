//! Records with damage that is known.

use crate::causes::first_cause;
use reference::cases::walk::{biased_list, others_after, Walked};
use reference::cases::Random;
use reference::{Refusal, Runs, Triple, TRIPLES};

/// What is wrong with a record. There may be any number of causes at once,
/// but for missing bytes and bytes too many.
#[derive(Clone, Copy, Debug)]
pub struct Damage {
    no_kind: bool,
    body: Body,
    spare_bit: bool,
    run_missing: bool,
    runs_left: bool,
}

/// The length of a body.
#[derive(Clone, Copy, Debug, PartialEq, Eq)]
enum Body {
    Right,
    Short,
    Long,
}

impl Damage {
    /// The number of combinations.
    pub const COUNT: usize = 48;

    /// Every combination, no damage too.
    pub fn all() -> impl Iterator<Item = Self> {
        let bodies = [Body::Right, Body::Short, Body::Long];
        bodies.into_iter().flat_map(|body| {
            (0..16).map(move |bits| Self {
                no_kind: bits & 1 != 0,
                body,
                spare_bit: bits & 2 != 0,
                run_missing: bits & 4 != 0,
                runs_left: bits & 8 != 0,
            })
        })
    }

    /// The refusal that comes first in the sheet's order.
    #[must_use]
    pub fn refusal(self) -> Option<Refusal> {
        let are_there = [
            self.no_kind,
            self.body == Body::Short,
            self.body == Body::Long,
            self.spare_bit,
            self.run_missing,
            self.runs_left,
        ];
        first_cause(Refusal::OF_RECORDS, are_there)
    }

    /// A random record with this damage and no other.
    pub fn record(self, random: &mut Random) -> Vec<u8> {
        let n = loop {
            let n = random.between(6, 255);
            if leaves_spare_bits(n) {
                break n;
            }
        };
        self.done_to(biased_list(n, random), random)
    }

    /// The record of a walk, with this damage and no other. The walk has at
    /// least 6 labels, and so many that its record has spare bits.
    pub fn done_to(self, mut walked: Walked, random: &mut Random) -> Vec<u8> {
        let n = walked.labels.len();
        if self.runs_left {
            leave_runs(&mut walked.triples, random);
        }
        if self.run_missing {
            miss_a_run(&mut walked.triples, random);
        }
        let mut record = walked.record();
        if self.spare_bit {
            let last = record.len() - 1;
            let spare = 8 * last - (3 * n - 3);
            record[last] |= random.byte() % (1 << spare);
            record[last] |= 1 << random.below(spare);
        }
        match self.body {
            Body::Right => {}
            Body::Short => record.truncate(random.between(1, record.len() - 1)),
            Body::Long => {
                let added = random.pick(&[1, 1, 2, 3, 96, 300]);
                record.extend((0..added).map(|_| random.byte()));
            }
        }
        if self.no_kind {
            record[0] = 0;
        }
        record
    }
}

/// Whether the record of `n` labels has spare bits: one count of eight leaves
/// none.
#[must_use]
pub fn leaves_spare_bits(n: usize) -> bool {
    n % 8 != 1
}

/// Changes the steps from some place on so that more than one run is left
/// after each of them.
fn leave_runs(triples: &mut [Triple], random: &mut Random) {
    let from = random.below(triples.len());
    let mut runs = Runs::start();
    for (place, triple) in triples.iter_mut().enumerate() {
        if place >= from {
            let leaves_runs = |&triple: &Triple| {
                runs.have_what_it_needs(triple) && others_after(&runs, triple) >= 1
            };
            let choices: Vec<Triple> = TRIPLES.into_iter().filter(leaves_runs).collect();
            *triple = random.pick(&choices);
        }
        runs.step(*triple);
    }
}

/// Puts at some place a step that needs a run on a side where there is none.
fn miss_a_run(triples: &mut [Triple], random: &mut Random) {
    let mut runs = Runs::start();
    let mut choices = Vec::new();
    for (place, &triple) in triples.iter().enumerate() {
        let lacks_a_run = |&wrong: &Triple| !runs.have_what_it_needs(wrong);
        let wrong = TRIPLES.into_iter().filter(lacks_a_run);
        choices.extend(wrong.map(|wrong| (place, wrong)));
        runs.step(triple);
    }
    // At the first place no other run is there yet, so there are choices.
    let (place, wrong) = random.pick(&choices);
    triples[place] = wrong;
}
