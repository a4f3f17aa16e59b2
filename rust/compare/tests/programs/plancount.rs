//! What `plancount` prints, byte for byte.

use compare::{Program, Tally};
use reference::cases::worked;
use std::fmt::Write;

/// The program reads nothing: with no input, with a record, with a number as a
/// line, and with more than a pipe holds it prints the same.
#[test]
fn any_input() {
    let program = Program::plancount();
    let mut tally = Tally::new("runs of plancount");
    let long = [0x31; 1_000_000];
    let inputs: [&[u8]; 5] = [&[], &[0], &worked::LISTED, b"17\n", &long];
    for input in inputs {
        tally.plancount(&program, input);
    }
    assert_eq!(tally.accepted(), inputs.len());
    tally.finish(inputs.len());
}

#[test]
fn lines_are_what_the_library_counts() {
    let mut lines = String::new();
    for n in 1..=nenturxo::COUNTED_ROOMS {
        for rises in 0..n {
            let count = nenturxo::plan_count(n, rises).expect("these are counted");
            writeln!(lines, "{n} {rises} {count}").expect("a string takes any text");
        }
    }
    let printed = Program::plancount().printed(&[]);
    assert_eq!(printed, lines);
    assert_eq!(printed.lines().count(), 153);
}

#[test]
fn first_and_last_lines() {
    let printed = Program::plancount().printed(&[]);
    let lines: Vec<&str> = printed.lines().collect();
    let first = [
        "1 0 1", "2 0 1", "2 1 1", "3 0 1", "3 1 4", "3 2 1", "4 0 1",
    ];
    assert_eq!(lines[..7], first);
    assert_eq!(lines[7..11], ["4 1 10", "4 2 10", "4 3 1", "5 0 1"]);
    assert_eq!(lines[151..], ["17 15 816", "17 16 1"]);
    assert!(printed.ends_with("\n"));
}
