//! The question: the library against the definitions.

mod all_pairs;
mod every_floorplan;
mod help;
mod random_pairs;
mod refused_records;
mod worked_plans;
