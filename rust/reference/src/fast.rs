//! The calls as fast as hand-written Rust makes them, for the benchmark.

mod basics;
mod book;
mod book_by_triples;
#[cfg(test)]
mod book_checks;
mod counts;
mod groups;
mod labels;
mod pattern;
mod plan;
mod rooms;
mod sizes;
mod steps;
mod text;
mod tidy;
mod trace;
mod tree;
mod tree_by_intervals;
#[cfg(test)]
mod tree_checks;
mod walks;

pub use book::{book_add, book_next};
pub use book_by_triples::{book_add_by_triples, book_next_by_triples};
pub use counts::{plan_count, plan_total};
pub use groups::groups;
pub use labels::labels_in;
pub use pattern::pattern;
pub use plan::{question, record_in};
pub use rooms::rooms_in;
pub use sizes::{lowest_corners, placing_in, slack};
pub use tidy::tidy;
pub use trace::trace;
pub use tree::tree;
pub use tree_by_intervals::tree_by_intervals;
