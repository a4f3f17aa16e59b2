//! The comparison of one case of a call that is handed bytes and writes to one
//! slice: "Labels in", "Tidy" and "Tree".

use crate::lent::{Output, Surroundings};
use crate::outcome::{number, Answer, Outcome, Outcomes};
use reference::Refusal;
use std::fmt;

/// A Rust version of such a call.
pub type Version = fn(&[u8], &mut [u8]) -> Answer;

/// The versions of such a call.
#[derive(Clone, Copy)]
pub struct Versions<E = Version> {
    /// The one that the others are held to.
    pub expected: E,
    /// The fast Rust version.
    pub fast: Version,
    pub library: fn(&[u8], &mut [u8]) -> Result<usize, nenturxo::Refusal>,
}

impl Versions {
    /// The same without the definitions, which take long for long lists.
    pub fn quick(self) -> Self {
        Self {
            expected: self.fast,
            ..self
        }
    }
}

impl<E: Fn(&[u8], &mut [u8]) -> Answer> Versions<E> {
    /// The answer that all versions agree on, for a slice of `capacity` bytes.
    pub fn agreed(
        &self,
        input: &[u8],
        capacity: usize,
        around: Surroundings,
        case: impl fmt::Display,
    ) -> Answer {
        let output = || Output::new(capacity, around);
        let mut answer = Err(Refusal::ListLength);
        let outcomes = Outcomes {
            expected: Outcome::of(input, output(), around, |input, output| {
                answer = (self.expected)(input, output.slice());
                answer.map_err(number)
            }),
            fast: Outcome::of(input, output(), around, |input, output| {
                (self.fast)(input, output.slice()).map_err(number)
            }),
            library: Outcome::of(input, output(), around, |input, output| {
                (self.library)(input, output.slice()).map_err(|refusal| refusal.number())
            }),
        };
        outcomes.agree(format_args!("{case}, capacity {capacity}"), |output| {
            output.is_clean_after(answer.unwrap_or(0))
        });
        answer
    }
}
