//! How a call is timed.
//!
//! There are many cases, since a processor learns the turns of a few by heart.
//! Rounds of the library and of the tuned Rust version take turns, and the
//! quickest round of each counts: whatever else the machine does only ever
//! makes a round slower. The Rust version that is written straight from the
//! sheet takes so long at times that it has one short turn.

use std::hint::black_box;
use std::time::{Duration, Instant};

/// Rounds of each version.
pub const ROUNDS: usize = 31;

/// Rooms that a round takes, at least.
const ROOMS_IN_A_ROUND: usize = 300_000;

/// How long the version from the sheet goes on.
const TURN_OF_THE_SHEET: Duration = Duration::from_millis(200);

/// Nanoseconds per call.
pub struct Times {
    pub library: f64,
    /// Of the Rust version that is written to be fast.
    pub tuned: f64,
}

impl Times {
    /// The time of the library in those of the tuned version.
    pub fn ratio(&self) -> f64 {
        self.library / self.tuned
    }
}

/// So many calls that a round of cases with `n` rooms has rooms enough, and
/// every case as often as every other.
pub fn calls_in_a_round<T>(cases: &[T], n: usize) -> usize {
    ROOMS_IN_A_ROUND.div_ceil(n * cases.len()) * cases.len()
}

/// The times of the quickest rounds of so many calls, which take the cases in
/// turn. What is written in a case is not cleared before the next.
pub fn quickest<T, A, B>(
    cases: &[T],
    calls: usize,
    mut library: impl FnMut(&T) -> A,
    mut tuned: impl FnMut(&T) -> B,
) -> Times {
    let mut least = Times {
        library: f64::INFINITY,
        tuned: f64::INFINITY,
    };
    for _ in 0..ROUNDS {
        least.library = least.library.min(round(cases, calls, &mut library));
        least.tuned = least.tuned.min(round(cases, calls, &mut tuned));
    }
    least
}

/// As [`quickest`], with a third version that takes its turn after the others.
pub fn quickest_of_three<T, A, B, C>(
    cases: &[T],
    calls: usize,
    mut library: impl FnMut(&T) -> A,
    mut tuned: impl FnMut(&T) -> B,
    mut third: impl FnMut(&T) -> C,
) -> (Times, f64) {
    let mut least = [f64::INFINITY; 3];
    for _ in 0..ROUNDS {
        let [by_library, by_tuned, by_third] = least;
        least = [
            by_library.min(round(cases, calls, &mut library)),
            by_tuned.min(round(cases, calls, &mut tuned)),
            by_third.min(round(cases, calls, &mut third)),
        ];
    }
    let [library, tuned, third] = least;
    (Times { library, tuned }, third)
}

/// Nanoseconds per call of one round.
fn round<T, A>(cases: &[T], calls: usize, call: &mut impl FnMut(&T) -> A) -> f64 {
    let start = Instant::now();
    for case in cases.iter().cycle().take(calls) {
        black_box(call(black_box(case)));
    }
    start.elapsed().as_nanos() as f64 / calls as f64
}

/// Nanoseconds per call of as many calls as are begun within the turn of the
/// version from the sheet.
pub fn one_turn<T, A>(cases: &[T], mut sheet: impl FnMut(&T) -> A) -> f64 {
    let start = Instant::now();
    let mut calls = 0;
    for case in cases.iter().cycle() {
        black_box(sheet(black_box(case)));
        calls += 1;
        if start.elapsed() >= TURN_OF_THE_SHEET {
            break;
        }
    }
    start.elapsed().as_nanos() as f64 / f64::from(calls)
}
