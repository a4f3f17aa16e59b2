//! "Groups": the library against the definitions.

mod addresses;
mod damaged_records;
mod every_floorplan;
mod help;
mod order;
mod outside;
mod random_plans;
mod single_rooms;
mod small_plans;
mod small_records;
mod whole_plans;
mod worked_groups;
