//! The calls of the sheet, written from its definitions and from nothing else.
//!
//! This is the separately written version that the proved library is held to.
//! It is meant to be believed by reading: each function is one sentence of
//! the sheet, or of the requests M-100 to M-112, and says which. What is fast
//! lives apart, in [`fast`], and is itself held to the definitions. What tests
//! are made of is in [`cases`].
//!
//! ```
//! let mut record = [0; 97];
//! let length = reference::labels_in(&[4, 1, 3, 5, 2], &mut record)?;
//! assert_eq!(record[..length], [0x05, 0x31, 0x70]);
//!
//! let plan = reference::plan_of(&record[..length])?;
//! assert_eq!(plan.labels, [4, 1, 3, 5, 2]);
//! # Ok::<(), reference::Refusal>(())
//! ```

#![forbid(unsafe_code)]

mod barred;
mod book;
pub mod cases;
mod counts;
mod cutting;
mod drawing;
mod edge;
pub mod fast;
mod groups;
mod labels;
mod pattern;
mod plan;
mod planlist;
mod question;
mod record;
mod refusal;
mod relation;
mod rooms;
mod runs;
mod sizes;
mod slicing;
mod text;
mod tidy;
mod trace;
mod tree;
mod triple;

pub use barred::is_barred;
pub use book::{book_add, book_next, summary_of, BookRefusal, Summary, BOOK_CAPACITY};
pub use counts::{counts_of, plan_count, plan_total, plancount};
pub use cutting::{cutting_tree, Cut, CuttingTree};
pub use drawing::{drawing, Room};
pub use edge::{Edge, Line};
pub use groups::{groups, positions_in, Group};
pub use labels::labels_in;
pub use pattern::{pattern, Condition, Pattern};
pub use plan::{plan_of, record_in, Plan};
pub use planlist::planlist;
pub use question::{question, Questions};
pub use record::{record_of, triples_in};
pub use refusal::Refusal;
pub use relation::{Relation, Side};
pub use rooms::{
    equivalent, numbering_of, rooms_in, segments, Chains, Contacts, Numbered, Numbering, Segment,
};
pub use runs::{labels_of, Runs, TRIPLES};
pub use sizes::{lowest_corners, placing_in, slack, SizedPlan};
pub use slicing::is_slicing;
pub use text::{numbers_in, tidy_form};
pub use tidy::tidy;
pub use trace::{trace, RefusedMove, TraceRefusal, Traced, TRACE_LENGTH};
pub use tree::{tree, tree_of};
pub use triple::{triples, Triple};
