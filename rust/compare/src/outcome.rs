//! What the versions of a call did with a case, and that all did the same.

use crate::lent::{Entry, Input, Surroundings, SURROUNDINGS};
use crate::tally::Tally;
use reference::Refusal;
use std::fmt;

/// What a call that writes is answered with.
pub type Answer = Result<usize, Refusal>;

impl Tally {
    /// Compares a case in all surroundings, counts it, and gives the answer
    /// that the versions agree on.
    pub(crate) fn in_surroundings(&mut self, agreed: impl Fn(Surroundings) -> Answer) -> Answer {
        // A Rust version cannot see what stands around, so one answer is all.
        let answers = SURROUNDINGS.map(agreed);
        self.count(&answers[0]);
        answers[0]
    }
}

/// The answer to an accepted input: the result if all slices are as long as
/// needed, and else 15.
pub fn fitting<const SLICES: usize>(
    result: usize,
    needed: [usize; SLICES],
    capacities: [usize; SLICES],
) -> Answer {
    let mut slices = needed.into_iter().zip(capacities);
    if slices.any(|(needed, capacity)| capacity < needed) {
        Err(Refusal::SliceShort)
    } else {
        Ok(result)
    }
}

/// One version's answer to a case: what it returned, a refusal as its number,
/// and the output slices after it.
#[derive(PartialEq, Eq)]
pub struct Outcome<O> {
    returned: Result<usize, u32>,
    outputs: O,
}

impl<O> Outcome<O> {
    /// Runs `call` on a lent input and on output slices.
    ///
    /// # Panics
    ///
    /// If it writes where the input stands.
    pub fn of<T: Entry>(
        input: &[T],
        mut outputs: O,
        around: Surroundings,
        call: impl FnOnce(&[T], &mut O) -> Result<usize, u32>,
    ) -> Self {
        let lent = Input::new(input, around);
        let returned = call(lent.slice(), &mut outputs);
        lent.expect_still(input);
        Self::new(returned, outputs)
    }

    /// What a call returned and left, whose inputs were lent elsewhere.
    pub fn new(returned: Result<usize, u32>, outputs: O) -> Self {
        Self { returned, outputs }
    }

    /// The same with output slices of another type.
    pub fn map<P>(self, other: impl FnOnce(O) -> P) -> Outcome<P> {
        Outcome {
            returned: self.returned,
            outputs: other(self.outputs),
        }
    }
}

impl<O: fmt::Display> fmt::Display for Outcome<O> {
    fn fmt(&self, f: &mut fmt::Formatter<'_>) -> fmt::Result {
        match self.returned {
            Ok(number) => write!(f, "result {number}, {}", self.outputs),
            Err(number) => write!(f, "refusal {number}, {}", self.outputs),
        }
    }
}

/// The number of a refusal, as the library has it.
pub fn number(refusal: Refusal) -> u32 {
    u32::from(refusal.number())
}

/// The outcomes of a case.
pub struct Outcomes<O> {
    /// What the definitions say, or what is known.
    pub expected: Outcome<O>,
    /// That of the fast Rust version.
    pub fast: Outcome<O>,
    pub library: Outcome<O>,
}

impl<O: PartialEq + fmt::Display> Outcomes<O> {
    /// Stops unless all three are the same, and the output slices hold what
    /// they should and nothing else.
    pub fn agree(&self, case: impl fmt::Display, are_clean: impl FnOnce(&O) -> bool) {
        let Self {
            expected,
            fast,
            library,
        } = self;
        assert!(
            library == expected && fast == expected && are_clean(&library.outputs),
            "the versions differ, or entries changed that must not\n\
             case     {case}\n\
             library  {library}\n\
             expected {expected}\n\
             fast     {fast}"
        );
    }
}
