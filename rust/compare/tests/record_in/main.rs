//! "Record in": the library against the definitions.

mod damaged_records;
mod random_records;
mod round_trips;
mod slices;
mod small_records;
mod worked_plans;
