//! "Combination": joining pairs into chains and cutting the chains into units.

use crate::block::Block;
use crate::dependence::{independent, Rows};
use crate::pairs::Pairs;

/// The statements of a pack in lane order (two or four), or one single statement.
pub type Unit = Vec<usize>;

/// All units. Their order does not matter: the schedule goes by statement numbers.
pub fn units(block: &Block, rows: &Rows, pairs: &Pairs) -> Vec<Unit> {
    let mut units = Vec::new();
    for first in 0..block.body().len() {
        // A statement that is right in no pair begins a chain, maybe of itself alone.
        if pairs.left_of[first].is_none() {
            cut(&chain_from(first, pairs), rows, &mut units);
        }
    }
    units
}

fn chain_from(first: usize, pairs: &Pairs) -> Vec<usize> {
    let mut chain = vec![first];
    let mut at = first;
    while let Some(next) = pairs.right_of[at] {
        chain.push(next);
        at = next;
    }
    chain
}

fn cut(chain: &[usize], rows: &Rows, units: &mut Vec<Unit>) {
    let mut rest = chain;
    while !rest.is_empty() {
        let take = if rest.len() >= 4 && pairwise_independent(&rest[..4], rows) {
            4
        } else if rest.len() >= 2 {
            2
        } else {
            1
        };
        units.push(rest[..take].to_vec());
        rest = &rest[take..];
    }
}

fn pairwise_independent(statements: &[usize], rows: &Rows) -> bool {
    statements.iter().enumerate().all(|(position, &first)| {
        statements[position + 1..].iter().all(|&second| independent(rows, first, second))
    })
}
