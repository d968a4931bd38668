//! "Estimate": what packing two statements would save, given the pairs admitted so far.

use crate::block::{neighbours, Block, Operand};
use crate::dependence::Definitions;
use crate::pairs::Pairs;

/// What the phases after seeding look at.
pub struct View<'a> {
    pub block: &'a Block,
    pub definitions: &'a Definitions,
    pub pairs: &'a Pairs,
}

impl View<'_> {
    /// The estimate of two statements of one operation and one kind of destination.
    pub fn estimate(&self, left: usize, right: usize) -> i32 {
        let (first, second) = (&self.block.statements[left], &self.block.statements[right]);
        let mut estimate = (first.price() + second.price()) as i32 - 1;
        for position in 0..2 {
            // A copy has no right position, so nothing is charged for it.
            if first.operands()[position] != Operand::Nothing {
                estimate -= self.position(left, right, position);
            }
        }
        estimate - self.destination(left, right)
    }

    fn position(&self, left: usize, right: usize, position: usize) -> i32 {
        let first = self.block.statements[left].operands()[position];
        let second = self.block.statements[right].operands()[position];
        if neighbours(first, second) || first.is_constant() && second.is_constant() {
            return 1;
        }
        let defined = (self.definitions[left][position], self.definitions[right][position]);
        if let (Some(one), Some(other)) = defined {
            if self.pairs.has(one, other) {
                return 0;
            }
        }
        2 + i32::from(first.is_cell()) + i32::from(second.is_cell())
    }

    fn destination(&self, left: usize, right: usize) -> i32 {
        let first = self.block.statements[left].destination;
        let second = self.block.statements[right].destination;
        if first.is_cell() {
            let in_a_row = neighbours(Operand::Held(first), Operand::Held(second));
            return if in_a_row { 1 } else { 4 };
        }
        let read = self.pairs.order.iter().any(|&(one, other)| {
            (0..2).any(|position| {
                self.definitions[one][position] == Some(left)
                    && self.definitions[other][position] == Some(right)
            })
        });
        if read {
            0
        } else {
            2
        }
    }
}
