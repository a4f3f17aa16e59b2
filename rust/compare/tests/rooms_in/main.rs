//! "Rooms in": the library against the definitions.

mod damaged_lists;
mod drawings;
mod equivalence;
mod names;
mod nested_plans;
mod round_trips;
mod slices;
mod small_lists;
mod worked_plans;
