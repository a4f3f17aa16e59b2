//! The comparison of one case of "Lowest corners".

use crate::lent::{Output, Surroundings, SURROUNDINGS};
use crate::lent_sizes::{LentSizes, Shown};
use crate::outcome::{fitting, number, Answer, Outcome, Outcomes};
use crate::tally::Tally;
use reference::cases::sizes::{Placing, SizedRecord};
use reference::Refusal;
use std::fmt;

/// The lengths of the output slices: that for x and that for y.
pub type Capacities = [usize; 2];

/// A Rust version of the call.
type Version = fn(&[u8], &[u16], &[u16], &mut [u32], &mut [u32]) -> Answer;

/// The output slices with their surroundings.
#[derive(PartialEq, Eq)]
struct Outputs {
    x: Output<u32>,
    y: Output<u32>,
}

impl Tally {
    /// Hands a record with sizes and output slices of the given lengths to the
    /// library, to the definitions and to the fast Rust version, and gives the
    /// answer that all three agree on.
    ///
    /// # Panics
    ///
    /// If they differ in their answer or in any entry in or around the slices.
    pub fn lowest_corners(&mut self, sized: &SizedRecord, capacities: Capacities) -> Answer {
        let (answer, _) = self.corners_as(reference::lowest_corners, sized, capacities);
        answer
    }

    /// As [`Self::lowest_corners`], but leaves out the definitions, which take
    /// long for large plans.
    ///
    /// # Panics
    ///
    /// As there.
    pub fn lowest_corners_quickly(
        &mut self,
        sized: &SizedRecord,
        capacities: Capacities,
    ) -> Answer {
        let (answer, _) = self.corners_as(reference::fast::lowest_corners, sized, capacities);
        answer
    }

    /// The answer that all versions agree on, and the corners that they wrote.
    fn corners_as(
        &mut self,
        definitions: Version,
        sized: &SizedRecord,
        capacities: Capacities,
    ) -> (Answer, Placing) {
        let (answer, corners) = written(definitions, sized, capacities);
        for around in SURROUNDINGS {
            agree(sized, capacities, around, answer, &corners);
        }
        self.count(&answer);
        (answer, corners)
    }

    /// Compares a record with sizes that is accepted where both slices are long
    /// enough, and else refused with 15.
    ///
    /// # Panics
    ///
    /// If the answer is another, or as [`Self::lowest_corners`].
    pub fn expect_fitting_corners(&mut self, sized: &SizedRecord, capacities: Capacities) {
        let n = sized.widths.len();
        let expected = fitting(n, [n; 2], capacities);
        let answer = self.lowest_corners(sized, capacities);
        assert_eq!(answer, expected, "{} into {capacities:?}", Shown(sized));
    }

    /// Compares a record with sizes that must be accepted: in slices of just the
    /// right length, in longer ones, and refused where one of them is shorter.
    /// Gives the corners.
    ///
    /// # Panics
    ///
    /// If the answer is another, or as [`Self::lowest_corners`].
    pub fn expect_corners(&mut self, sized: &SizedRecord) -> Placing {
        let n = sized.widths.len();
        let (answer, corners) = self.corners_as(reference::lowest_corners, sized, [n; 2]);
        assert_eq!(answer, Ok(n), "{}", Shown(sized));
        self.expect_fitting_corners(sized, [n + 3, n + 1]);
        // Which slice is the short one goes round with the sizes.
        let mut capacities = [n + 1; 2];
        let sum: usize = sized.widths.iter().copied().map(usize::from).sum();
        capacities[sum % 2] = n - 1;
        self.expect_fitting_corners(sized, capacities);
        corners
    }

    /// Compares a record with sizes that must be refused with `refusal`,
    /// whatever the slices: with none to write to, with short ones and with long
    /// ones.
    ///
    /// # Panics
    ///
    /// If the answer is another, or as [`Self::lowest_corners`].
    pub fn expect_refused_corners(&mut self, sized: &SizedRecord, refusal: Refusal) {
        for capacities in [[0; 2], [3, 1], [255; 2]] {
            let answer = self.lowest_corners(sized, capacities);
            let expected = Err(refusal);
            assert_eq!(answer, expected, "{} into {capacities:?}", Shown(sized));
        }
    }
}

/// What a Rust version answers, and the corners that it writes, which are none
/// on a refusal.
fn written(version: Version, sized: &SizedRecord, capacities: Capacities) -> (Answer, Placing) {
    let mut outputs = Outputs::new(capacities, SURROUNDINGS[0]);
    let (x, y) = outputs.slices();
    let answer = version(&sized.record, &sized.widths, &sized.heights, x, y);
    let n = answer.unwrap_or(0);
    let corners = Placing {
        x: x[..n].to_vec(),
        y: y[..n].to_vec(),
    };
    assert!(outputs.are_clean_after(n), "{}: {outputs}", Shown(sized));
    (answer, corners)
}

/// Holds the library and the fast Rust version to an answer and the corners.
fn agree(
    sized: &SizedRecord,
    capacities: Capacities,
    around: Surroundings,
    answer: Answer,
    corners: &Placing,
) {
    let expected = |_: &LentSizes, outputs: &mut Outputs| {
        let (x, y) = outputs.slices();
        x[..corners.x.len()].copy_from_slice(&corners.x);
        y[..corners.y.len()].copy_from_slice(&corners.y);
        answer.map_err(number)
    };
    let fast = |lent: &LentSizes, outputs: &mut Outputs| {
        let ((record, widths, heights), (x, y)) = (lent.slices(), outputs.slices());
        reference::fast::lowest_corners(record, widths, heights, x, y).map_err(number)
    };
    let library = |lent: &LentSizes, outputs: &mut Outputs| {
        let ((record, widths, heights), (x, y)) = (lent.slices(), outputs.slices());
        nenturxo::lowest_corners(record, widths, heights, x, y).map_err(|refusal| refusal.number())
    };
    let outcomes = Outcomes {
        expected: outcome(sized, capacities, around, expected),
        fast: outcome(sized, capacities, around, fast),
        library: outcome(sized, capacities, around, library),
    };
    outcomes.agree(
        format_args!("{}, capacities {capacities:?}", Shown(sized)),
        |outputs| outputs.are_clean_after(answer.unwrap_or(0)),
    );
}

/// What a call answers and leaves, on slices that are lent to it.
fn outcome(
    sized: &SizedRecord,
    capacities: Capacities,
    around: Surroundings,
    call: impl FnOnce(&LentSizes, &mut Outputs) -> Result<usize, u32>,
) -> Outcome<Outputs> {
    let lent = LentSizes::new(sized, around);
    let mut outputs = Outputs::new(capacities, around);
    let returned = call(&lent, &mut outputs);
    lent.expect_still(sized);
    Outcome::new(returned, outputs)
}

impl Outputs {
    fn new([x, y]: Capacities, around: Surroundings) -> Self {
        Self {
            x: Output::new(x, around),
            y: Output::new(y, around),
        }
    }

    fn slices(&mut self) -> (&mut [u32], &mut [u32]) {
        (self.x.slice(), self.y.slice())
    }

    /// Whether all but the first `written` entries of each slice, and all
    /// around them, are as they were.
    fn are_clean_after(&self, written: usize) -> bool {
        self.x.is_clean_after(written) && self.y.is_clean_after(written)
    }
}

impl fmt::Display for Outputs {
    fn fmt(&self, f: &mut fmt::Formatter<'_>) -> fmt::Result {
        write!(f, "x {}, y {}", self.x, self.y)
    }
}
