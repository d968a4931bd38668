//! The proved library beside the second program: for each call a check that gives both the same input
//! and wants the same numbers back, and the same contents in all that was lent.

mod cases;
mod difference;
pub mod driven;
mod lent;
mod making;
pub mod programs;
mod reading;
mod running;
mod tables;
mod writing;

pub use cases::{case, compare, Case, Seen, KINDS};
pub use difference::Difference;
pub use lent::{Lent, Manner};
pub use making::make_list;
pub use reading::{both_ways, read_block};
pub use running::{run_block, run_list};
pub use tables::table_of;
pub use writing::write_block;

use second::random::Random;

/// The library's calls, linked. `driven` has the same calls by way of the driver, a program of its own.
pub mod library {
    pub use nephinor::calls::{make_list, read_block, run_block, run_list, write_block};
    pub use nephinor::calls::{Answer, TABLE};
}

/// What is compared of a call: with a block's bytes, and what else it takes drawn at random. It returns
/// the status that came back.
pub type Check = fn(Manner, &mut Random, &[u8]) -> Result<u8, Difference>;

/// The calls by their names.
pub const CALLS: &[(&str, Check)] = &[
    ("read_block", reading::check),
    ("write_block", writing::check),
    ("make_list", making::check),
    ("run_block", running::check_block),
    ("run_list", running::check_list),
];

/// The calls of these names; none if there is no such call.
pub fn calls(names: &[&str]) -> Option<Vec<(&'static str, Check)>> {
    names.iter().map(|&name| CALLS.iter().copied().find(|call| call.0 == name)).collect()
}
