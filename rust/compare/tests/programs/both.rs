//! Cases that both programs that read a record get.

use compare::damage::Damage;
use compare::records::worked_records;
use compare::{each_times, Program, Tally};
use reference::cases::walk::{biased_list, random_list};
use reference::Refusal;

fn run_worked_records(name: &'static str, program: &Program) {
    let mut tally = Tally::new(name);
    for record in worked_records() {
        tally.run(program, &record);
    }
    assert_eq!(tally.accepted(), 9);
    tally.finish(15);
}

#[test]
fn worked_records_of_the_sheet() {
    run_worked_records(
        "listings of the sheet's worked records",
        &Program::planlist(),
    );
    run_worked_records(
        "pictures of the sheet's worked records",
        &Program::plandraw(),
    );
}

/// A record of each count of rooms, and so many others.
fn run_random_records(name: &'static str, program: &Program, seed: u64, others: usize) {
    let counts = (1..=255).map(Some).chain((0..others).map(|_| None));
    let tally = Tally::of_rounds(name, seed, counts, |tally, random, count| {
        let walked = match count {
            Some(n) => random_list(n, random),
            None => biased_list(random.between(1, 255), random),
        };
        tally.run(program, &walked.record());
    });
    assert_eq!(tally.accepted(), 255 + others);
    tally.finish(255 + others);
}

#[test]
fn random_records() {
    run_random_records(
        "listings of random records",
        &Program::planlist(),
        121,
        1_000,
    );
    run_random_records("pictures of random records", &Program::plandraw(), 141, 500);
}

/// So many records with each damage.
fn run_damaged_records(name: &'static str, program: &Program, seed: u64, records: usize) {
    let damages = each_times(Damage::all(), records);
    let tally = Tally::of_rounds(name, seed, damages, |tally, random, damage| {
        tally.run(program, &damage.record(random));
    });
    assert_eq!(tally.accepted(), records);
    tally.expect_refused([Refusal::RunsLeft], [records]);
    tally.finish(Damage::COUNT * records);
}

#[test]
fn damaged_records() {
    run_damaged_records("listings of damaged records", &Program::planlist(), 122, 20);
    run_damaged_records("pictures of damaged records", &Program::plandraw(), 142, 10);
}

/// Inputs of these lengths: a record of each count of rooms with bytes after
/// it, or with bytes that are missing, and each of the bytes again and again.
fn run_long_inputs(
    (name, program, seed): (&'static str, &Program, u64),
    lengths: &[usize],
    counts: &[usize],
    bytes: &[u8],
) -> Tally {
    Tally::of_rounds(name, seed, lengths, |tally, random, &length| {
        for &n in counts {
            let mut input = random_list(n, random).record();
            input.resize(length, 0);
            tally.run(program, &input);
        }
        for &byte in bytes {
            tally.run(program, &vec![byte; length]);
        }
    })
}

#[test]
fn long_inputs() {
    let lengths = [96, 97, 98, 99, 100, 194, 4_096, 65_536, 65_633, 1_000_000];
    let listings = ("listings of long inputs", &Program::planlist(), 123);
    let tally = run_long_inputs(listings, &lengths, &[1, 5, 254, 255], &[0, 1, 255]);
    tally.finish(lengths.len() * 7);

    let lengths = [97, 98, 99, 100, 194, 65_633, 1_000_000];
    let pictures = ("pictures of long inputs", &Program::plandraw(), 143);
    let tally = run_long_inputs(pictures, &lengths, &[1, 5, 255], &[0]);
    assert_eq!(tally.accepted(), 1);
    tally.finish(lengths.len() * 4);
}
