//! Short ways to write blocks down and to call the program, for the other tests.

use second::block::{Block, Operand, Place, Statement};
use second::calls::{make_list, write_block, Made};

pub use second::patterns::copy;

pub fn variable(number: u8) -> Place {
    Place::Variable(number)
}

pub fn cell(array: u8, index: u8) -> Place {
    Place::Cell(array, index)
}

pub fn held(place: Place) -> Operand {
    Operand::Held(place)
}

pub fn v(number: u8) -> Operand {
    held(variable(number))
}

pub fn c(array: u8, index: u8) -> Operand {
    held(cell(array, index))
}

pub fn number(value: u32) -> Operand {
    Operand::Constant(value)
}

pub fn statement(destination: Place, left: Operand, operation: u8, right: Operand) -> Statement {
    Statement { operation, destination, left, right }
}

pub fn block(variables: u8, live_out: u8, lengths: &[u16], statements: &[Statement]) -> Block {
    let mut block = Block { variables, live_out, ..Block::EMPTY };
    block.arrays = lengths.len() as u8;
    block.lengths[..lengths.len()].copy_from_slice(lengths);
    block.statement_count = statements.len() as u8;
    block.statements[..statements.len()].copy_from_slice(statements);
    block
}

/// The bytes of a block that can be written.
pub fn bytes_of(block: &Block) -> Vec<u8> {
    let mut room = vec![0; 2000];
    let (status, length) = write_block(block, &mut room);
    assert_eq!(status, 0);
    room.truncate(length);
    room
}

/// What making a list returns for the bytes, and the list.
pub fn make(bytes: &[u8]) -> (Made, Vec<u8>) {
    let mut room = vec![0; 2000];
    let made = make_list(bytes, &mut room);
    room.truncate(made.length);
    (made, room)
}

/// Puts the number of all bytes where it is stated.
pub fn stated(mut bytes: Vec<u8>) -> Vec<u8> {
    let length = bytes.len() as u16;
    bytes[1..3].copy_from_slice(&length.to_be_bytes());
    bytes
}
