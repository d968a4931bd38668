//! The bytes of a block: reading and writing them, with the order of refusals that document 01
//! gives to each. The reader goes record by record, the writer number by number.

use crate::block::{Block, Operand, Statement, COPY, MOST_ARRAYS, MOST_CELLS};
use crate::block::{MOST_STATEMENTS, MOST_VARIABLES, SHIFT_RIGHT};
use crate::cursor::{append_operand, append_record, Cursor};
use crate::refusal::Refusal;

const VERSION: u8 = 1;
const HEADER: usize = 7;

/// Reads a block from its bytes.
pub fn read(bytes: &[u8]) -> Result<Block, Refusal> {
    if bytes.len() < HEADER {
        return Err(Refusal::Length);
    }
    if bytes[0] != VERSION {
        return Err(Refusal::Version);
    }
    if usize::from(u16::from_be_bytes([bytes[1], bytes[2]])) != bytes.len() {
        return Err(Refusal::Length);
    }
    let mut block = Block {
        variables: bytes[3],
        live_out: bytes[4],
        arrays: bytes[5],
        statement_count: bytes[6],
        ..Block::EMPTY
    };
    if !counts_within_limits(&block) {
        return Err(Refusal::Limit);
    }
    read_rest(&mut block, Cursor::new(&bytes[HEADER..]))?;
    Ok(block)
}

fn counts_within_limits(block: &Block) -> bool {
    block.variables <= MOST_VARIABLES
        && block.live_out <= block.variables
        && usize::from(block.arrays) <= MOST_ARRAYS
        && usize::from(block.statement_count) <= MOST_STATEMENTS
}

fn length_within_limits(length: u16) -> bool {
    (1..=MOST_CELLS).contains(&length)
}

/// Reads what follows the header: array by array, then record by record, then the end.
fn read_rest(block: &mut Block, mut cursor: Cursor) -> Result<(), Refusal> {
    for array in 0..usize::from(block.arrays) {
        let length = cursor.pair().ok_or(Refusal::Form)?;
        if !length_within_limits(length) {
            return Err(Refusal::Limit);
        }
        block.lengths[array] = length;
    }
    for number in 0..usize::from(block.statement_count) {
        let record = cursor.record().ok_or(Refusal::Form)?;
        let statement = read_statement(record).ok_or(Refusal::Form)?;
        if !declared(block, &statement) {
            return Err(Refusal::Undeclared);
        }
        block.statements[number] = statement;
    }
    if !cursor.at_end() {
        return Err(Refusal::Form);
    }
    Ok(())
}

/// Reads one record to its end; none if it has not the form of a statement.
fn read_statement(mut record: Cursor) -> Option<Statement> {
    let operation = record.byte()?;
    if operation > SHIFT_RIGHT {
        return None;
    }
    let destination = record.place()?;
    let left = record.operand()?;
    let right = match operation {
        COPY => Operand::Nothing,
        _ => record.operand()?,
    };
    record.at_end().then_some(Statement { operation, destination, left, right })
}

fn declared(block: &Block, statement: &Statement) -> bool {
    block.declares(statement.destination)
        && block.declares_operand(statement.left)
        && block.declares_operand(statement.right)
}

/// Whether a statement in memory can be written: what only the bytes could get wrong is not tested.
fn well_formed(statement: &Statement) -> bool {
    statement.operation <= SHIFT_RIGHT
        && statement.left != Operand::Nothing
        && (statement.right == Operand::Nothing) == (statement.operation == COPY)
}

/// The bytes of a block, or the number of its refusal, each tested over the whole block.
pub fn write(block: &Block) -> Result<Vec<u8>, Refusal> {
    let lengths = block.array_lengths();
    if !counts_within_limits(block) || !lengths.iter().all(|&l| length_within_limits(l)) {
        return Err(Refusal::Limit);
    }
    if !block.body().iter().all(well_formed) {
        return Err(Refusal::Form);
    }
    if !block.body().iter().all(|s| declared(block, s)) {
        return Err(Refusal::Undeclared);
    }
    Ok(bytes_of(block))
}

fn bytes_of(block: &Block) -> Vec<u8> {
    let mut bytes = vec![VERSION, 0, 0];
    bytes.extend([block.variables, block.live_out]);
    bytes.extend([block.arrays, block.statement_count]);
    for length in block.array_lengths() {
        bytes.extend(length.to_be_bytes());
    }
    for statement in block.body() {
        let mut record = vec![statement.operation];
        append_operand(&mut record, Operand::Held(statement.destination));
        append_operand(&mut record, statement.left);
        append_operand(&mut record, statement.right);
        append_record(&mut bytes, &record);
    }
    set_stated_length(&mut bytes);
    bytes
}

/// Puts the length of all bytes where blocks and lists state it.
pub fn set_stated_length(bytes: &mut [u8]) {
    let length = bytes.len() as u16;
    bytes[1..3].copy_from_slice(&length.to_be_bytes());
}
