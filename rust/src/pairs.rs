//! "Pairs": the pairs admitted so far, and whether one more may be.

use crate::block::{Block, MOST_STATEMENTS};
use crate::dependence::{independent, Rows};

/// Admitted pairs in order of admission, and each statement's neighbour on either side.
pub struct Pairs {
    pub order: Vec<(usize, usize)>,
    pub right_of: [Option<usize>; MOST_STATEMENTS],
    pub left_of: [Option<usize>; MOST_STATEMENTS],
}

impl Pairs {
    pub fn none() -> Pairs {
        Pairs {
            order: Vec::new(),
            right_of: [None; MOST_STATEMENTS],
            left_of: [None; MOST_STATEMENTS],
        }
    }

    pub fn admit(&mut self, left: usize, right: usize) {
        self.order.push((left, right));
        self.right_of[left] = Some(right);
        self.left_of[right] = Some(left);
    }

    pub fn has(&self, left: usize, right: usize) -> bool {
        self.right_of[left] == Some(right)
    }

    pub fn may_admit(&self, block: &Block, rows: &Rows, left: usize, right: usize) -> bool {
        let (first, second) = (&block.statements[left], &block.statements[right]);
        left != right
            && first.operation == second.operation
            && first.destination.is_cell() == second.destination.is_cell()
            && independent(rows, left, right)
            && self.right_of[left].is_none()
            && self.left_of[right].is_none()
            && !self.leads(right, left)
    }

    /// Whether a chain of admitted pairs leads from one statement to the other. There are no rings,
    /// so the walk ends.
    fn leads(&self, from: usize, to: usize) -> bool {
        let mut at = from;
        while let Some(next) = self.right_of[at] {
            if next == to {
                return true;
            }
            at = next;
        }
        false
    }
}
