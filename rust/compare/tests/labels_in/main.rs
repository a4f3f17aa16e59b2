//! "Labels in": the library against the definitions.

mod damaged_lists;
mod permutations;
mod random_lists;
mod refusals;
mod repeated_labels;
mod slices;
mod small_lists;
mod worked_plans;
