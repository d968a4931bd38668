//! The tests of the second program, and that the documents name what is there. All are deterministic,
//! and what they expect comes from document 01, from the shared vectors, or from a naive computation in
//! the test itself.

mod command_line;
mod damaged;
mod dependence;
mod documents;
mod features;
mod help;
mod naive;
mod promises;
mod reader_refusals;
mod round_trips;
mod running_refusals;
mod samples;
mod vectors;
mod worked;
mod writer_refusals;
