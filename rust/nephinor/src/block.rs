//! A block in memory, and the table of numbers in which it goes to the library and comes from it. The
//! table's layout is said in `include/nephinor.h`.

use crate::calls::TABLE;

const LENGTHS: usize = 4;
const STATEMENTS: usize = 12;
const STATEMENT_SIZE: usize = 10;

const CONSTANT: u32 = 0;
const VARIABLE: u32 = 1;
const CELL: u32 = 2;
const NOTHING: u32 = 3;

/// A block. It may say what no bytes can, as more than 64 statements: writing it then is refused.
#[derive(Clone, Debug, Default, PartialEq, Eq)]
pub struct Block {
    pub variables: u8,
    /// The first so many variables are live out.
    pub live_out: u8,
    /// The length of each array.
    pub lengths: Vec<u16>,
    pub statements: Vec<Statement>,
}

#[derive(Clone, Copy, Debug, PartialEq, Eq)]
pub struct Statement {
    pub operation: Operation,
    pub destination: Place,
    pub left: Operand,
    /// None for a copy, and for nothing else.
    pub right: Option<Operand>,
}

/// The operation; its number in the bytes is the discriminant. Results of add, subtract and multiply are
/// taken modulo 2^32. The shift count is the right operand modulo 32.
#[derive(Clone, Copy, Debug, PartialEq, Eq)]
pub enum Operation {
    Copy = 0,
    Add = 1,
    Subtract = 2,
    Multiply = 3,
    And = 4,
    Or = 5,
    ExclusiveOr = 6,
    ShiftRight = 7,
}

#[derive(Clone, Copy, Debug, PartialEq, Eq)]
pub enum Place {
    Variable(u8),
    Cell { array: u8, index: u8 },
}

#[derive(Clone, Copy, Debug, PartialEq, Eq)]
pub enum Operand {
    Constant(u32),
    Held(Place),
}

impl Block {
    /// The cells that the block declares, which is how many have to be lent.
    pub fn cell_count(&self) -> usize {
        self.lengths.iter().map(|&length| usize::from(length)).sum()
    }

    /// The table that says this block. What does not fit is left out: the counts say it, and the
    /// library refuses these counts.
    pub(crate) fn table(&self) -> [u32; TABLE] {
        let mut table = [0; TABLE];
        table[0] = u32::from(self.variables);
        table[1] = u32::from(self.live_out);
        table[2] = count(self.lengths.len());
        table[3] = count(self.statements.len());
        for (slot, &length) in table[LENGTHS..STATEMENTS].iter_mut().zip(&self.lengths) {
            *slot = u32::from(length);
        }
        let slots = table[STATEMENTS..].chunks_exact_mut(STATEMENT_SIZE);
        for (slot, statement) in slots.zip(&self.statements) {
            slot[0] = statement.operation as u32;
            slot[1..4].copy_from_slice(&place_numbers(statement.destination));
            slot[4..7].copy_from_slice(&operand_numbers(Some(statement.left)));
            slot[7..10].copy_from_slice(&operand_numbers(statement.right));
        }
        table
    }

    /// The block of a table that the library has filled.
    pub(crate) fn of_table(table: &[u32; TABLE]) -> Block {
        let (arrays, statements) = (table[2] as usize, table[3] as usize);
        let slots = table[STATEMENTS..].chunks_exact(STATEMENT_SIZE);
        Block {
            variables: table[0] as u8,
            live_out: table[1] as u8,
            lengths: table[LENGTHS..].iter().take(arrays).map(|&length| length as u16).collect(),
            statements: slots.take(statements).map(statement_said).collect(),
        }
    }
}

/// A count as a number of the table; one that no number says is over every limit anyway.
fn count(length: usize) -> u32 {
    u32::try_from(length).unwrap_or(u32::MAX)
}

fn place_numbers(place: Place) -> [u32; 3] {
    match place {
        Place::Variable(number) => [VARIABLE, u32::from(number), 0],
        Place::Cell { array, index } => [CELL, u32::from(array), u32::from(index)],
    }
}

fn operand_numbers(operand: Option<Operand>) -> [u32; 3] {
    match operand {
        Some(Operand::Constant(value)) => [CONSTANT, value, 0],
        Some(Operand::Held(place)) => place_numbers(place),
        None => [NOTHING, 0, 0],
    }
}

/// The statement in ten numbers of a table that the library has filled.
fn statement_said(numbers: &[u32]) -> Statement {
    let operand = "a statement of a block that was read has a left operand";
    let place = "a statement of a block that was read writes a place";
    Statement {
        operation: operation_said(numbers[0]),
        destination: match operand_said(&numbers[1..4]) {
            Some(Operand::Held(destination)) => destination,
            _ => unreachable!("{place}"),
        },
        left: operand_said(&numbers[4..7]).expect(operand),
        right: operand_said(&numbers[7..10]),
    }
}

fn operation_said(number: u32) -> Operation {
    match number {
        0 => Operation::Copy,
        1 => Operation::Add,
        2 => Operation::Subtract,
        3 => Operation::Multiply,
        4 => Operation::And,
        5 => Operation::Or,
        6 => Operation::ExclusiveOr,
        7 => Operation::ShiftRight,
        other => unreachable!("the library reads operations 0 to 7, and here {other}"),
    }
}

fn operand_said(numbers: &[u32]) -> Option<Operand> {
    match *numbers {
        [CONSTANT, value, _] => Some(Operand::Constant(value)),
        [VARIABLE, number, _] => Some(Operand::Held(Place::Variable(number as u8))),
        [CELL, array, index] => {
            Some(Operand::Held(Place::Cell { array: array as u8, index: index as u8 }))
        }
        _ => None,
    }
}
