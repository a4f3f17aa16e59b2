//! "Trace": the library against the definitions.

mod cut_traces;
mod damaged_traces;
mod faults;
mod help;
mod lengths;
mod long_traces;
mod order;
mod present_triples;
mod records;
mod rooms;
mod slices;
mod small_traces;
mod worked_traces;
