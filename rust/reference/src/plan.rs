//! What a record stands for, and the call "Record in" of the sheet.

use crate::record::triples_in;
use crate::runs::labels_of;
use crate::{drawing, Refusal, Room, Side};

/// What an accepted record stands for.
#[derive(Clone, Debug, PartialEq, Eq)]
pub struct Plan {
    /// The labels by position.
    pub labels: Vec<u8>,
    /// The rooms of the grid drawing by position.
    pub rooms: Vec<Room>,
}

/// The plan that a record stands for.
///
/// # Errors
///
/// The first cause found in the order 9, 10, 11, 14, 12, 13.
pub fn plan_of(record: &[u8]) -> Result<Plan, Refusal> {
    let triples = triples_in(record)?;
    let labels = labels_of(&triples)?;
    let rooms = drawing(&labels);
    Ok(Plan { labels, rooms })
}

/// Record in: writes the labels and the rooms by position to the front of the
/// two slices and gives the number of rooms, n.
///
/// Entries after the first n keep their values.
///
/// # Errors
///
/// The first cause found in the order 9, 10, 11, 14, 12, 13, 15; both slices
/// are then as they were.
pub fn record_in(record: &[u8], labels: &mut [u8], rooms: &mut [Room]) -> Result<usize, Refusal> {
    plan_of(record)?.write(labels, rooms)
}

impl Plan {
    /// Writes the labels and the rooms to the front of the two slices and
    /// gives the number of rooms.
    ///
    /// # Errors
    ///
    /// 15 if one of the slices is too short; both are then as they were.
    pub fn write(&self, labels: &mut [u8], rooms: &mut [Room]) -> Result<usize, Refusal> {
        let n = self.labels.len();
        let labels = front(labels, n)?;
        let rooms = front(rooms, n)?;
        labels.copy_from_slice(&self.labels);
        rooms.copy_from_slice(&self.rooms);
        Ok(n)
    }

    /// The side of the second room on which the first one is: for positions
    /// i < j, room i is left of j if its label is smaller, else below j.
    ///
    /// Both are named by their places in lists by position, from 0 on.
    ///
    /// # Panics
    ///
    /// If there is no such place, or both are the same.
    #[must_use]
    pub fn side(&self, first: usize, second: usize) -> Side {
        assert_ne!(first, second, "a room has no relation to itself");
        if first > second {
            return self.side(second, first).opposite();
        }
        if self.labels[first] < self.labels[second] {
            Side::Left
        } else {
            Side::Below
        }
    }
}

/// The first `n` entries of an output slice.
pub(crate) fn front<T>(slice: &mut [T], n: usize) -> Result<&mut [T], Refusal> {
    slice.get_mut(..n).ok_or(Refusal::SliceShort)
}
