//! "Book next" and "Book add": the library against the definitions.

mod bad_records;
mod behind;
mod damaged_books;
mod help;
mod large_books;
mod lengths;
mod order;
mod small_books;
mod summaries;
mod worked_books;
