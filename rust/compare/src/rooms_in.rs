//! The comparison of one case of "Rooms in".

use crate::floorplan::Floorplan;
use crate::given::{written, GivenRooms};
use crate::lent::{Output, Surroundings};
use crate::of_library;
use crate::outcome::{fitting, number, Answer, Outcome, Outcomes};
use crate::tally::Tally;
use reference::{Numbered, Numbering, Refusal};
use std::fmt;

/// The lengths of the output slices: for the record, the labels, the positions
/// and the names.
pub type Capacities = [usize; 4];

impl Tally {
    /// Hands a room list and output slices of the given lengths to the
    /// library and to the fast Rust version, holds them to the list's answer,
    /// and gives the answer that all three agree on.
    ///
    /// # Panics
    ///
    /// If they differ in their answer or in any entry in or around the slices.
    pub fn rooms_in(&mut self, given: &GivenRooms, capacities: Capacities) -> Answer {
        self.in_surroundings(|around| agreed(given, capacities, around))
    }

    /// Compares a list that is accepted where all slices are long enough, and
    /// else refused with 15.
    ///
    /// # Panics
    ///
    /// If the answer is another, or as [`Self::rooms_in`].
    pub fn expect_numbers(&mut self, given: &GivenRooms, capacities: Capacities) {
        let needed = given.needed();
        let answer = self.rooms_in(given, capacities);
        let expected = fitting(needed[0], needed, capacities);
        assert_eq!(answer, expected, "{given} into {capacities:?}");
    }

    /// Compares the rooms of a plan as [`Self::rooms`] does, with the answer
    /// of the definitions.
    ///
    /// # Panics
    ///
    /// If the definitions give the plan another numbering, or as
    /// [`Self::rooms`].
    pub fn defined_plan(&mut self, plan: &Floorplan) {
        let given = GivenRooms::new(plan.rooms());
        assert_eq!(given.answer, Ok(plan.numbering()), "{given}");
        self.rooms(&given);
    }

    /// Compares an accepted list in slices of just the right length, in longer
    /// ones, and refused where one of them is shorter; and a refused list
    /// with none to write to, with short ones and with long ones.
    ///
    /// # Panics
    ///
    /// As [`Self::rooms_in`].
    pub fn rooms(&mut self, given: &GivenRooms) {
        let choices = if given.answer.is_ok() {
            let [record, n, ..] = given.needed();
            // Which slice is the short one goes round with the lists.
            let mut short = [record + 1, n + 1, n + 1, n + 1];
            short[usize::from(given.input[0].right) % 4] -= 2;
            [[record, n, n, n], [record + 3, n + 1, n + 2, n + 4], short]
        } else {
            [[0; 4], [2, 1, 0, 1], [97, 255, 255, 255]]
        };
        for capacities in choices {
            let _ = self.rooms_in(given, capacities);
        }
    }
}

/// What the library answers a room list with, in slices that are long enough.
///
/// # Errors
///
/// As [`nenturxo::rooms_in`].
pub fn library_numbering(rooms: &[nenturxo::Room]) -> Result<Numbering, nenturxo::Refusal> {
    written(rooms.len(), |slices| into_slices(rooms, slices))
}

/// Hands rooms to the library.
///
/// # Errors
///
/// As [`nenturxo::rooms_in`].
pub fn into_slices(
    rooms: &[nenturxo::Room],
    slices: Numbered<'_>,
) -> Result<usize, nenturxo::Refusal> {
    let Numbered {
        record,
        labels,
        positions,
        names,
    } = slices;
    nenturxo::rooms_in(rooms, record, labels, positions, names)
}

/// The slices for record, labels, positions and names with their surroundings.
#[derive(PartialEq, Eq)]
struct Outputs {
    record: Output<u8>,
    labels: Output<u8>,
    positions: Output<u8>,
    names: Output<u16>,
}

impl Outputs {
    fn new([record, labels, positions, names]: Capacities, around: Surroundings) -> Self {
        Self {
            record: Output::new(record, around),
            labels: Output::new(labels, around),
            positions: Output::new(positions, around),
            names: Output::new(names, around),
        }
    }

    fn slices(&mut self) -> Numbered<'_> {
        Numbered {
            record: self.record.slice(),
            labels: self.labels.slice(),
            positions: self.positions.slice(),
            names: self.names.slice(),
        }
    }

    /// Whether all but the first `length` bytes of the record and the first
    /// `n` entries of the other slices, and all around them, are as they were.
    fn are_clean_after(&self, length: usize, n: usize) -> bool {
        self.record.is_clean_after(length)
            && self.labels.is_clean_after(n)
            && self.positions.is_clean_after(n)
            && self.names.is_clean_after(n)
    }
}

impl fmt::Display for Outputs {
    fn fmt(&self, f: &mut fmt::Formatter<'_>) -> fmt::Result {
        write!(f, "record {}, labels {}", self.record, self.labels)?;
        write!(f, ", positions {}, names {}", self.positions, self.names)
    }
}

/// The answer that the library and the fast Rust version agree on with what is
/// known of the list.
fn agreed(given: &GivenRooms, capacities: Capacities, around: Surroundings) -> Answer {
    let (rooms, outputs) = (&given.input[..], || Outputs::new(capacities, around));
    let handed = of_library::rooms(rooms);
    let mut answer = Err(Refusal::ListLength);
    let outcomes = Outcomes {
        expected: Outcome::of(rooms, outputs(), around, |_, outputs| {
            answer = given.and_then(|numbering| numbering.write(outputs.slices()));
            answer.map_err(number)
        }),
        fast: Outcome::of(rooms, outputs(), around, |rooms, outputs| {
            reference::fast::rooms_in(rooms, outputs.slices()).map_err(number)
        }),
        library: Outcome::of(&handed, outputs(), around, |rooms, outputs| {
            into_slices(rooms, outputs.slices()).map_err(|refusal| refusal.number())
        }),
    };
    let (length, n) = answer.map_or((0, 0), |length| (length, rooms.len()));
    outcomes.agree(
        format_args!("list {given}, capacities {capacities:?}"),
        |outputs| outputs.are_clean_after(length, n),
    );
    answer
}
