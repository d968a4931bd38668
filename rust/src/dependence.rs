//! "Dependence": for each statement the set of earlier ones that a path of dependences leads to,
//! as one row of bits.

use crate::block::{Block, Operand, Statement, MOST_STATEMENTS};

/// Row s has bit t set when statement s depends on statement t, directly or through others.
pub type Rows = [u64; MOST_STATEMENTS];

/// Whether the later statement depends on the earlier one with no other in between.
pub fn depends_directly(later: &Statement, earlier: &Statement) -> bool {
    later.reads(earlier.destination)
        || earlier.reads(later.destination)
        || later.destination == earlier.destination
}

/// Every path from a statement goes through one that it depends on directly, whose row is full.
/// The nearest come first, so that what their rows have already need not be asked again.
pub fn rows(block: &Block) -> Rows {
    let body = block.body();
    let mut rows = [0; MOST_STATEMENTS];
    for later in 0..body.len() {
        let mut row: u64 = 0;
        for earlier in (0..later).rev() {
            if row >> earlier & 1 == 0 && depends_directly(&body[later], &body[earlier]) {
                row |= 1 << earlier | rows[earlier];
            }
        }
        rows[later] = row;
    }
    rows
}

/// Whether no path joins the two, which must differ. One of the two tests looks backwards and is
/// then false by itself, since a row only has earlier statements.
pub fn independent(rows: &Rows, first: usize, second: usize) -> bool {
    rows[first] >> second & 1 == 0 && rows[second] >> first & 1 == 0
}

/// For each statement and operand position, the last definition of the variable read there that
/// stands before the statement.
pub type Definitions = [[Option<usize>; 2]; MOST_STATEMENTS];

pub fn definitions(block: &Block) -> Definitions {
    let body = block.body();
    let mut definitions = [[None; 2]; MOST_STATEMENTS];
    for (reader, statement) in body.iter().enumerate() {
        for (position, operand) in statement.operands().into_iter().enumerate() {
            if operand.variable().is_some() {
                definitions[reader][position] =
                    body[..reader].iter().rposition(|s| Operand::Held(s.destination) == operand);
            }
        }
    }
    definitions
}
