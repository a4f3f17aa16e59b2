//! The output slices of "Record in".

use crate::lent::{Entry, Output, Surroundings};
use crate::of_library;
use reference::Room;
use std::fmt;

/// The lengths of the output slices: that for the labels and that for the
/// rooms.
pub type Capacities = [usize; 2];

/// The output slices with their surroundings, for rooms of the library or of
/// the Rust versions.
#[derive(Clone, PartialEq, Eq)]
pub(crate) struct Outputs<R> {
    labels: Output<u8>,
    rooms: Output<R>,
}

impl<R: Entry> Outputs<R> {
    pub(crate) fn new([labels, rooms]: Capacities, around: Surroundings) -> Self {
        Self {
            labels: Output::new(labels, around),
            rooms: Output::new(rooms, around),
        }
    }

    pub(crate) fn slices(&mut self) -> (&mut [u8], &mut [R]) {
        (self.labels.slice(), self.rooms.slice())
    }

    /// Whether all but the first `written` entries of each slice, and all
    /// around them, are as they were.
    pub(crate) fn are_clean_after(&self, written: usize) -> bool {
        self.labels.is_clean_after(written) && self.rooms.is_clean_after(written)
    }
}

impl Outputs<Room> {
    /// The same with the rooms as the library writes them.
    pub(crate) fn of_library(self) -> Outputs<nenturxo::Room> {
        Outputs {
            labels: self.labels,
            rooms: self.rooms.map(of_library::room),
        }
    }
}

impl<R: Entry> fmt::Display for Outputs<R> {
    fn fmt(&self, f: &mut fmt::Formatter<'_>) -> fmt::Result {
        write!(f, "labels {}, rooms {}", self.labels, self.rooms)
    }
}
