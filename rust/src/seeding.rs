//! "Seeding": the first pairs, from cells that are neighbours at one position.

use crate::block::{neighbours, Block, Operand, Statement};
use crate::dependence::Rows;
use crate::pairs::Pairs;

pub fn seed(block: &Block, rows: &Rows) -> Pairs {
    let body = block.body();
    let mut pairs = Pairs::none();
    for left in 0..body.len() {
        for right in 0..body.len() {
            if pairs.may_admit(block, rows, left, right)
                && neighbours_somewhere(&body[left], &body[right])
            {
                pairs.admit(left, right);
            }
        }
    }
    pairs
}

fn neighbours_somewhere(first: &Statement, second: &Statement) -> bool {
    neighbours(Operand::Held(first.destination), Operand::Held(second.destination))
        || neighbours(first.left, second.left)
        || neighbours(first.right, second.right)
}
