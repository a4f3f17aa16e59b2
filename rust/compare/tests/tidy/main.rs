//! "Tidy": the library against the definitions.

mod damaged_texts;
mod long_texts;
mod same_labels;
mod slices;
mod small_texts;
mod typed_texts;
mod worked_texts;
