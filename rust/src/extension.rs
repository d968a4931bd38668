//! "Extension": more pairs, along the variables that join admitted ones to other statements.

use crate::block::Block;
use crate::dependence::{Definitions, Rows};
use crate::estimate::View;
use crate::pairs::Pairs;

/// Visits each pair once, those that are added on the way included.
pub fn extend(block: &Block, rows: &Rows, definitions: &Definitions, pairs: &mut Pairs) {
    let mut visited = 0;
    while visited < pairs.order.len() {
        let (left, right) = pairs.order[visited];
        for position in 0..2 {
            use_to_definition(block, rows, definitions, pairs, (left, right), position);
        }
        definition_to_use(block, rows, definitions, pairs, (left, right));
        visited += 1;
    }
}

/// Only variables have definitions, so that both operands are variables need not be asked.
fn use_to_definition(
    block: &Block,
    rows: &Rows,
    definitions: &Definitions,
    pairs: &mut Pairs,
    (left, right): (usize, usize),
    position: usize,
) {
    let defined = (definitions[left][position], definitions[right][position]);
    if let (Some(one), Some(other)) = defined {
        let view = View { block, definitions, pairs };
        if pairs.may_admit(block, rows, one, other) && view.estimate(one, other) >= 0 {
            pairs.admit(one, other);
        }
    }
}

/// Admits the best pair of readers; of equal ones the first stays, since only a greater one
/// takes its place. No definition stands for a cell, so both destinations are variables.
fn definition_to_use(
    block: &Block,
    rows: &Rows,
    definitions: &Definitions,
    pairs: &mut Pairs,
    (left, right): (usize, usize),
) {
    let reads = |reader: usize, defined: usize| definitions[reader].contains(&Some(defined));
    let count = block.body().len();
    let view = View { block, definitions, pairs };
    let mut best: Option<(i32, usize, usize)> = None;
    for one in (0..count).filter(|&one| reads(one, left)) {
        for other in (0..count).filter(|&other| reads(other, right)) {
            if pairs.may_admit(block, rows, one, other) {
                let estimate = view.estimate(one, other);
                if best.is_none_or(|(greatest, _, _)| estimate > greatest) {
                    best = Some((estimate, one, other));
                }
            }
        }
    }
    if let Some((estimate, one, other)) = best {
        if estimate >= 0 {
            pairs.admit(one, other);
        }
    }
}
