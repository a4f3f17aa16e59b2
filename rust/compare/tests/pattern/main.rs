//! "Pattern": the library against the definitions.

mod damaged_lists;
mod help;
mod late_patterns;
mod lengths;
mod permutations;
mod random_lists;
mod small_lists;
mod two_patterns;
mod worked_patterns;
