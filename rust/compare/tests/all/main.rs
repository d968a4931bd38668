//! The proved library and the second program, side by side: the vectors, generated and damaged
//! blocks, rooms of every size around the answer's, and what a refusal leaves of what was lent.

mod accounts;
mod driver;
mod generated;
mod making;
mod programs;
mod rooms;
mod vectors;
mod ways;
mod wrapper;
