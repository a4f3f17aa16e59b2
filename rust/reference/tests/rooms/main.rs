//! "Rooms in", held to the sheet's worked plans, to its definitions to the
//! letter, and to the drawings that the rooms come from.

mod causes;
mod drawings;
mod equivalence;
mod help;
mod large;
mod names;
mod slices;
mod worked;
