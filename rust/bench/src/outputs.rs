//! Output slices that are long enough for every answer.

use crate::room_list::RoomList;
use compare::rooms_in::into_slices;
use nenturxo::{RECORD_CAPACITY, ROOMS_CAPACITY};
use reference::{fast, Numbered, Refusal, Room};

/// The output slices of "Record in", for rooms of the library or of the Rust
/// versions.
#[derive(Debug, PartialEq, Eq)]
pub struct Drawing<R> {
    pub labels: [u8; ROOMS_CAPACITY],
    pub rooms: [R; ROOMS_CAPACITY],
}

impl Drawing<nenturxo::Room> {
    pub fn of_library() -> Self {
        Self {
            labels: [0; ROOMS_CAPACITY],
            rooms: [nenturxo::Room::default(); ROOMS_CAPACITY],
        }
    }

    /// Hands a record to the library.
    pub fn by_library(&mut self, record: &[u8]) -> Result<usize, nenturxo::Refusal> {
        nenturxo::record_in(record, &mut self.labels, &mut self.rooms)
    }
}

impl Drawing<Room> {
    pub fn of_rust() -> Self {
        Self {
            labels: [0; ROOMS_CAPACITY],
            rooms: [Room::from([0; 4]); ROOMS_CAPACITY],
        }
    }

    /// Hands a record to the Rust version that is written straight from the
    /// sheet.
    pub fn by_sheet(&mut self, record: &[u8]) -> Result<usize, Refusal> {
        reference::record_in(record, &mut self.labels, &mut self.rooms)
    }

    /// Hands a record to the Rust version that is written to be fast.
    pub fn by_tuned(&mut self, record: &[u8]) -> Result<usize, Refusal> {
        fast::record_in(record, &mut self.labels, &mut self.rooms)
    }
}

/// The output slices of "Rooms in".
#[derive(Debug, PartialEq, Eq)]
pub struct Numbers {
    pub record: [u8; RECORD_CAPACITY],
    pub labels: [u8; ROOMS_CAPACITY],
    pub positions: [u8; ROOMS_CAPACITY],
    pub names: [u16; ROOMS_CAPACITY],
}

impl Numbers {
    pub fn new() -> Self {
        Self {
            record: [0; RECORD_CAPACITY],
            labels: [0; ROOMS_CAPACITY],
            positions: [0; ROOMS_CAPACITY],
            names: [0; ROOMS_CAPACITY],
        }
    }

    fn slices(&mut self) -> Numbered<'_> {
        Numbered {
            record: &mut self.record,
            labels: &mut self.labels,
            positions: &mut self.positions,
            names: &mut self.names,
        }
    }

    /// Hands rooms to the library.
    pub fn by_library(&mut self, list: &RoomList) -> Result<usize, nenturxo::Refusal> {
        into_slices(&list.handed, self.slices())
    }

    /// Hands rooms to the Rust version that is written straight from the sheet.
    pub fn by_sheet(&mut self, list: &RoomList) -> Result<usize, Refusal> {
        reference::rooms_in(&list.rooms, self.slices())
    }

    /// Hands rooms to the Rust version that is written to be fast.
    pub fn by_tuned(&mut self, list: &RoomList) -> Result<usize, Refusal> {
        fast::rooms_in(&list.rooms, self.slices())
    }
}
