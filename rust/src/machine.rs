//! What the operations do, and running a block on lent variables and cells.

use crate::block::{Block, Operand, Place, Statement};

/// The lent variables and cells, with the block that says where each array begins.
pub struct Memory<'a> {
    pub block: &'a Block,
    pub variables: &'a mut [u32],
    pub cells: &'a mut [u32],
}

impl Memory<'_> {
    /// Arrays stand one after another, so an array begins where the lengths before it end.
    fn cell_number(&self, array: u8, index: u8) -> usize {
        let before = &self.block.lengths[..usize::from(array)];
        let start: usize = before.iter().map(|&l| usize::from(l)).sum();
        start + usize::from(index)
    }

    pub fn read(&self, place: Place) -> u32 {
        match place {
            Place::Variable(number) => self.variables[usize::from(number)],
            Place::Cell(array, index) => self.cells[self.cell_number(array, index)],
        }
    }

    pub fn write(&mut self, place: Place, value: u32) {
        match place {
            Place::Variable(number) => self.variables[usize::from(number)] = value,
            Place::Cell(array, index) => self.cells[self.cell_number(array, index)] = value,
        }
    }

    pub fn value(&self, operand: Operand) -> u32 {
        match operand {
            Operand::Nothing => 0,
            Operand::Constant(value) => value,
            Operand::Held(place) => self.read(place),
        }
    }

    pub fn run_statement(&mut self, statement: &Statement) {
        let left = self.value(statement.left);
        let right = self.value(statement.right);
        self.write(statement.destination, work(statement.operation, left, right));
    }

    /// Runs every statement of the block in order and returns the price paid.
    pub fn run_block(&mut self) -> u32 {
        let block = self.block;
        for statement in block.body() {
            self.run_statement(statement);
        }
        block.price()
    }
}

/// The result of an operation on two values; a copy does not look at the right one.
pub fn work(operation: u8, left: u32, right: u32) -> u32 {
    match operation {
        0 => left,
        1 => left.wrapping_add(right),
        2 => left.wrapping_sub(right),
        3 => left.wrapping_mul(right),
        4 => left & right,
        5 => left | right,
        6 => left ^ right,
        _ => left >> (right % 32),
    }
}
