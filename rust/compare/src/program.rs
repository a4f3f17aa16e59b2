//! Runs of the programs.

use crate::lent::shown;
use crate::tally::Tally;
use reference::plan_of;
use std::env;
use std::io::{ErrorKind, Write};
use std::path::PathBuf;
use std::process::{ChildStdin, Command, ExitStatus, Stdio};
use std::thread::sleep;
use std::time::Duration;

/// The time between two pieces of an input.
const PAUSE: Duration = Duration::from_millis(20);

/// Says what is wrong with what is printed for an input.
type Judge = fn(printed: &str, input: &[u8]) -> Result<(), String>;

/// A program, and what it should print.
pub struct Program {
    path: PathBuf,
    judge: Judge,
}

impl Program {
    /// The program that a variable names.
    pub(crate) fn named_by(variable: &str, judge: Judge) -> Self {
        let path = env::var_os(variable).unwrap_or_else(|| panic!("{variable} is not set"));
        Self {
            path: PathBuf::from(path),
            judge,
        }
    }

    /// What the program prints for an input that comes in pieces.
    ///
    /// # Panics
    ///
    /// If the program does not start, or does not end by itself.
    #[must_use]
    pub fn printed(&self, pieces: &[&[u8]]) -> String {
        self.run(pieces).0
    }

    /// How the program ends with an input that comes in pieces.
    ///
    /// # Panics
    ///
    /// If it prints anything else than it should, or as [`Self::printed`].
    pub(crate) fn judged(&self, pieces: &[&[u8]]) -> ExitStatus {
        let (printed, status) = self.run(pieces);
        let input = pieces.concat();
        if let Err(difference) = (self.judge)(&printed, &input) {
            let input = shown(&input);
            panic!("{difference}\ninput   {input}\nprinted {printed}");
        }
        status
    }

    /// What the program prints for an input that comes in pieces, and how it ends.
    fn run(&self, pieces: &[&[u8]]) -> (String, ExitStatus) {
        let mut child = Command::new(&self.path)
            .stdin(Stdio::piped())
            .stdout(Stdio::piped())
            .spawn()
            .unwrap_or_else(|error| panic!("{} did not start: {error}", self.path.display()));
        let mut input = child.stdin.take().expect("the input is a pipe");
        for (count, piece) in pieces.iter().enumerate() {
            if count > 0 {
                sleep(PAUSE);
            }
            write(&mut input, piece);
        }
        drop(input);
        let output = child.wait_with_output().expect("the output is a pipe");
        assert!(output.status.code().is_some(), "{}", output.status);
        let printed = String::from_utf8_lossy(&output.stdout).into_owned();
        (printed, output.status)
    }
}

/// Writes a piece of the input. The program need not read it all.
fn write(input: &mut ChildStdin, piece: &[u8]) {
    if let Err(error) = input.write_all(piece) {
        assert_eq!(error.kind(), ErrorKind::BrokenPipe, "{error}");
    }
}

impl Tally {
    /// Gives a program an input and compares what it prints.
    ///
    /// # Panics
    ///
    /// If it prints anything else than it should.
    pub fn run(&mut self, program: &Program, input: &[u8]) {
        self.run_in_pieces(program, &[input]);
    }

    /// As [`Self::run`], for an input that comes in pieces with pauses.
    ///
    /// # Panics
    ///
    /// As there.
    pub fn run_in_pieces(&mut self, program: &Program, pieces: &[&[u8]]) {
        program.judged(pieces);
        self.count(&plan_of(&pieces.concat()));
    }
}
