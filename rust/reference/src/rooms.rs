//! The call "Rooms in" of the sheet, with the names that M-106 adds.

mod causes;
mod chains;
mod equivalent;
mod orders;
mod ranks;
mod segments;
mod touch;

pub use chains::Chains;
pub use equivalent::equivalent;
pub use segments::{segments, Segment};
pub use touch::Contacts;

use crate::plan::front;
use crate::{record_of, triples, Refusal, Room};
use causes::{floorplan_of, share_a_name};
use orders::{by_position, orders_of};
use segments::supports_of;

/// What an accepted room list is answered with.
#[derive(Clone, Debug, PartialEq, Eq)]
pub struct Numbering {
    /// The record of the label list.
    pub record: Vec<u8>,
    /// The label of each room, in list order.
    pub labels: Vec<u8>,
    /// The position of each room, in list order.
    pub positions: Vec<u8>,
    /// The name at each position.
    pub names: Vec<u16>,
}

/// The record of a room list, the labels and positions of its rooms, and their
/// names.
///
/// # Errors
///
/// The first cause found in the order 1, 2, 3, 4, 5, 20.
pub fn numbering_of(rooms: &[Room]) -> Result<Numbering, Refusal> {
    let floorplan = floorplan_of(rooms)?;
    if share_a_name(rooms) {
        return Err(Refusal::NameTwice);
    }
    let orders = orders_of(&supports_of(&floorplan.rooms));
    let labels: Vec<u8> = orders.iter().map(|order| order.label).collect();
    let names: Vec<u16> = rooms.iter().map(|room| room.name).collect();
    Ok(Numbering {
        // The label list gives the labels by position.
        record: record_of(floorplan.n, &triples(&by_position(&orders, &labels))),
        labels,
        positions: orders.iter().map(|order| order.position).collect(),
        names: by_position(&orders, &names),
    })
}

/// The output slices of a call.
#[derive(Debug)]
pub struct Numbered<'a> {
    /// For the record.
    pub record: &'a mut [u8],
    /// For the labels, in list order.
    pub labels: &'a mut [u8],
    /// For the positions, in list order.
    pub positions: &'a mut [u8],
    /// For the names, by position.
    pub names: &'a mut [u16],
}

/// Rooms in: writes the record of the label list of the rooms, the label and
/// the position of each room in list order, and the names by position to the
/// fronts of the four slices, and gives the record's length.
///
/// Bytes after the record, and entries after the first n labels, positions and
/// names, keep their values.
///
/// # Errors
///
/// The first cause found in the order 1, 2, 3, 4, 5, 20, 15; all four slices
/// are then as they were.
pub fn rooms_in(rooms: &[Room], slices: Numbered<'_>) -> Result<usize, Refusal> {
    numbering_of(rooms)?.write(slices)
}

impl Numbering {
    /// Writes the record, the labels, the positions and the names to the fronts
    /// of the four slices and gives the record's length.
    ///
    /// # Errors
    ///
    /// 15 if one of the slices is too short; all four are then as they were.
    pub fn write(&self, slices: Numbered<'_>) -> Result<usize, Refusal> {
        let record = front(slices.record, self.record.len())?;
        let labels = front(slices.labels, self.labels.len())?;
        let positions = front(slices.positions, self.positions.len())?;
        let names = front(slices.names, self.names.len())?;
        record.copy_from_slice(&self.record);
        labels.copy_from_slice(&self.labels);
        positions.copy_from_slice(&self.positions);
        names.copy_from_slice(&self.names);
        Ok(record.len())
    }

    /// The four lists, to be written to.
    pub fn slices(&mut self) -> Numbered<'_> {
        Numbered {
            record: &mut self.record,
            labels: &mut self.labels,
            positions: &mut self.positions,
            names: &mut self.names,
        }
    }
}
