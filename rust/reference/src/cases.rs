//! What tests are made of, here and in the crates that rest on this one: all
//! inputs of a small size, random ones, and what the sheet, 000, 001 and 003 print.
//!
//! No call uses any of it.

pub mod asked;
pub mod barred;
pub mod book;
pub mod counts;
pub mod groups;
pub mod names;
mod random;
pub mod sizes;
pub mod slicing;
mod small;
pub mod text;
pub mod trace;
pub mod walk;
pub mod worked;

pub use random::Random;
pub use small::{
    baxter_lists, baxter_lists_up_to, each_permutation, every_code, every_list, BAXTER_NUMBERS,
};

use crate::{Numbering, Room};

/// The unnamed rooms with these corners: left, bottom, right, top.
#[must_use]
pub fn rooms(corners: &[[u16; 4]]) -> Vec<Room> {
    corners.iter().copied().map(Room::from).collect()
}

/// Lists of these lengths for "Rooms in" to write to: for the record, the
/// labels, the positions and the names. No small plan has what is in them.
#[must_use]
pub fn unwritten([record, labels, positions, names]: [usize; 4]) -> Numbering {
    Numbering {
        record: vec![0xa5; record],
        labels: vec![0xa5; labels],
        positions: vec![0xa5; positions],
        names: vec![0xa5a5; names],
    }
}
