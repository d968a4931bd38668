//! The list's machine: running a list that is allowed, beside its block, on lent memory.

use crate::block::{Operand, Place};
use crate::list::{Instruction, MOST_LANES};
use crate::machine::{work, Memory};

type Lanes = [u32; MOST_LANES];

/// The memory of the block and the registers written so far.
pub struct Card<'a> {
    pub memory: Memory<'a>,
    pub registers: Vec<Lanes>,
}

impl Card<'_> {
    /// Runs the list, which must be allowed, and returns the price paid.
    pub fn run(&mut self, list: &[Instruction]) -> u32 {
        let mut paid = 0;
        for instruction in list {
            self.step(instruction);
            paid += instruction.price(self.memory.block);
        }
        paid
    }

    fn step(&mut self, instruction: &Instruction) {
        match *instruction {
            Instruction::Single { statement } => {
                let statement = self.memory.block.statements[usize::from(statement)];
                self.memory.run_statement(&statement);
            }
            Instruction::Load { lanes, array, index, .. } => self.load(lanes, array, index),
            Instruction::Constants { values, .. } => self.registers.push(values),
            Instruction::Gather { operands, .. } => self.gather(operands),
            Instruction::Operate { operation, left, right, .. } => {
                self.operate(operation, left, right);
            }
            Instruction::Store { register, lanes, array, index } => {
                for lane in 0..lanes {
                    self.store(register, lane, Place::Cell(array, index + lane));
                }
            }
            Instruction::StoreLane { register, lane, array, index } => {
                self.store(register, lane, Place::Cell(array, index));
            }
            Instruction::Extract { register, lane, variable } => {
                self.store(register, lane, Place::Variable(variable));
            }
        }
    }

    fn load(&mut self, lanes: u8, array: u8, index: u8) {
        let mut values = [0; MOST_LANES];
        for lane in 0..lanes {
            values[usize::from(lane)] = self.memory.read(Place::Cell(array, index + lane));
        }
        self.registers.push(values);
    }

    fn gather(&mut self, operands: [Operand; MOST_LANES]) {
        let values = operands.map(|operand| self.memory.value(operand));
        self.registers.push(values);
    }

    /// Works on all lane slots: those above the lanes hold nothing that is ever read.
    fn operate(&mut self, operation: u8, left: u8, right: Option<u8>) {
        let left = self.registers[usize::from(left)];
        let right = right.map_or([0; MOST_LANES], |r| self.registers[usize::from(r)]);
        let mut values = [0; MOST_LANES];
        for lane in 0..MOST_LANES {
            values[lane] = work(operation, left[lane], right[lane]);
        }
        self.registers.push(values);
    }

    fn store(&mut self, register: u8, lane: u8, place: Place) {
        let value = self.registers[usize::from(register)][usize::from(lane)];
        self.memory.write(place, value);
    }
}
