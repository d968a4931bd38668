//! The second program: everything of document 01, written apart from the proved library so that the
//! two can be compared. One module for each paragraph of the document.

pub mod block;
pub mod calls;
pub mod card;
pub mod choice;
pub mod combination;
pub mod cursor;
pub mod damage;
pub mod dependence;
pub mod emission;
pub mod estimate;
pub mod extension;
pub mod format;
pub mod generator;
pub mod list;
pub mod machine;
pub mod pairs;
pub mod patterns;
pub mod random;
pub mod refusal;
pub mod schedule;
pub mod seeding;
pub mod side_by_side;
pub mod text;
