//! Hands millions of random and damaged inputs to each call of the library and
//! compares the answers with those of the Rust versions, in surroundings in
//! which nothing that a call does outside of its slices stays hidden.
//!
//! The only argument is the number of inputs, in thousands. Inputs come in
//! batches of a thousand, each from its own seed, so the counts at the end are
//! the same on every machine and however the threads share the batches.
//!
//! The first difference is printed with its input, and the status is then 1.

#![forbid(unsafe_code)]

mod books;
mod call;
mod counts;
mod groups;
mod labels;
mod patterns;
mod records;
mod rooms;
mod size;
mod sizes;
mod texts;
mod traces;

use call::{Call, BATCH, CALLS};
use compare::{grouped, Tally};
use reference::cases::Random;
use std::process::ExitCode;
use std::sync::atomic::{AtomicUsize, Ordering};
use std::{env, panic, process, thread};

/// Batches, unless the argument says otherwise.
const BATCHES: usize = 14_000;

const THREADS: usize = 2;

/// The first batch that no thread has taken yet.
static NEXT: AtomicUsize = AtomicUsize::new(0);

fn main() -> ExitCode {
    let Some(batches) = batches() else {
        eprintln!("usage: soak [thousands of inputs]");
        return ExitCode::from(2);
    };
    end_at_a_panic();
    let tallies = soak(batches);
    for tally in &tallies {
        println!("{tally}");
    }
    let inputs: usize = tallies.iter().map(Tally::cases).sum();
    assert_eq!(inputs, batches * BATCH, "not every input was compared");
    for (call, tally) in CALLS.iter().zip(&tallies) {
        call.check(tally);
    }
    groups::check_answers();
    println!("soak: {} inputs, no difference", grouped(inputs));
    ExitCode::SUCCESS
}

/// The number of batches, if the arguments make sense.
fn batches() -> Option<usize> {
    let mut arguments = env::args().skip(1);
    let batches = arguments
        .next()
        .map_or(Some(BATCHES), |number| number.parse().ok());
    batches.filter(|_| arguments.next().is_none())
}

/// Makes the first panic of any thread print its message and end the program
/// with status 1: a comparison panics where it finds a difference.
fn end_at_a_panic() {
    let print = panic::take_hook();
    panic::set_hook(Box::new(move |panic| {
        print(panic);
        process::exit(1);
    }));
}

/// Compares so many batches and gives the tally of each call.
fn soak(batches: usize) -> [Tally; CALLS.len()] {
    let mut sums = CALLS.each_ref().map(Call::tally);
    let threads = [(); THREADS].map(|()| thread::spawn(move || work(batches)));
    for thread in threads {
        let tallies = thread.join().expect("a panic ends the program");
        for (sum, tally) in sums.iter_mut().zip(tallies) {
            *sum += tally;
        }
    }
    sums
}

/// What one thread does: takes the next batch, until there is none. The calls
/// take turns.
fn work(batches: usize) -> [Tally; CALLS.len()] {
    let mut tallies = CALLS.each_ref().map(Call::tally);
    loop {
        let batch = NEXT.fetch_add(1, Ordering::Relaxed);
        if batch >= batches {
            return tallies;
        }
        let which = batch % CALLS.len();
        let mut random = Random::from_seed(batch as u64);
        CALLS[which].compare(&mut tallies[which], &mut random);
    }
}
