//! "Lowest corners", "Slack" and "Placing in": the library against the
//! definitions.

mod damaged_records;
mod help;
mod lists;
mod moved_plans;
mod no_lower;
mod order;
mod outlines;
mod random_plans;
mod rows;
mod slices;
mod small_plans;
mod small_records;
mod touching;
mod worked_sizes;
mod zero_sizes;
