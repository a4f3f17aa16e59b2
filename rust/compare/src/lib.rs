//! What the comparing tests, the soak and the benchmark share: random
//! floorplans, damage, and the comparison of one case.
//!
//! Each call of the sheet, and each program, has a module here that compares a
//! case of it, and a folder or a file in `tests/` with the cases.

#![forbid(unsafe_code)]

mod book_add;
mod book_next;
mod causes;
mod counts;
pub mod damage;
pub mod floorplan;
mod given;
mod groups;
pub mod label_damage;
mod labels_in;
mod lent;
mod lent_sizes;
mod library_plan;
mod lowest_corners;
pub mod of_library;
mod one_slice;
mod outcome;
mod pattern;
mod placing_in;
mod plancount;
pub mod plandraw;
mod planlist;
mod program;
mod question;
mod record_in;
mod record_slices;
pub mod records;
pub mod room_damage;
pub mod rooms_in;
mod rounds;
mod slack;
mod svg;
mod tally;
pub mod text_damage;
pub mod tidy;
mod trace;
pub mod tree;
mod walks;

pub use book_add::Addition;
pub use causes::each_times;
pub use floorplan::Floorplan;
pub use given::{AskedRecord, Given, GivenRecord, GivenRooms, GivenTree};
pub use groups::Groups;
pub use library_plan::LibraryPlan;
pub use program::Program;
pub use question::AskedPlan;
pub use rounds::repeat;
pub use tally::{grouped, report, Tally};
pub use trace::GivenTrace;
