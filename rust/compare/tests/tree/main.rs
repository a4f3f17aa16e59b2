//! "Tree": the library against the definitions.

mod back_again;
mod damaged_records;
mod four_labels;
mod random_plans;
mod rows_and_combs;
mod slices;
mod small_records;
mod table_1;
mod worked_trees;
