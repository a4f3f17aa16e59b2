//! "Plan count" and "Plan total": the library against the definitions, against
//! what 000 and 003 print, and against records and label lists that are counted
//! one by one.

mod every_number;
mod formula;
mod help;
mod label_lists;
mod records;
mod table_1;
mod worked_counts;
