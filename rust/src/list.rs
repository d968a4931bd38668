//! "The list": its instructions, their bytes and prices, reading a list (all of 8) and the rules
//! that a list must keep beside its block (all of 9).

use crate::block::{Block, Operand, Place, COPY, SHIFT_RIGHT};
use crate::cursor::{append_operand, append_record, Cursor};
use crate::format::set_stated_length;
use crate::refusal::Refusal;

pub const MOST_INSTRUCTIONS: usize = 160;
pub const MOST_REGISTERS: usize = 96;
pub const MOST_LANES: usize = 4;

const VERSION: u8 = 1;

/// An instruction. Lane slots at or above `lanes` hold zero or `Nothing`; they are never written.
#[derive(Clone, Copy, Debug, PartialEq, Eq)]
pub enum Instruction {
    /// S
    Single { statement: u8 },
    /// L
    Load { register: u8, lanes: u8, array: u8, index: u8 },
    /// C
    Constants { register: u8, lanes: u8, values: [u32; MOST_LANES] },
    /// G
    Gather { register: u8, lanes: u8, operands: [Operand; MOST_LANES] },
    /// O; a copy has no right register
    Operate { register: u8, operation: u8, lanes: u8, left: u8, right: Option<u8> },
    /// W
    Store { register: u8, lanes: u8, array: u8, index: u8 },
    /// D
    StoreLane { register: u8, lane: u8, array: u8, index: u8 },
    /// X
    Extract { register: u8, lane: u8, variable: u8 },
}

use Instruction::*;

impl Instruction {
    pub fn is_vector(&self) -> bool {
        !matches!(self, Single { .. })
    }

    /// The price beside a block that has the statement, which the rules of 9 ensure.
    pub fn price(&self, block: &Block) -> u32 {
        match *self {
            Single { statement } => match block.body().get(usize::from(statement)) {
                Some(statement) => statement.price(),
                None => 0,
            },
            Gather { lanes, operands, .. } => {
                u32::from(lanes) + operands.iter().filter(|o| o.is_cell()).count() as u32
            }
            StoreLane { .. } => 2,
            _ => 1,
        }
    }

    /// The new register that the instruction writes, with its lanes.
    pub fn written(&self) -> Option<(u8, u8)> {
        match *self {
            Load { register, lanes, .. }
            | Constants { register, lanes, .. }
            | Gather { register, lanes, .. }
            | Operate { register, lanes, .. } => Some((register, lanes)),
            _ => None,
        }
    }
}

/// The price of a whole list.
pub fn price(block: &Block, list: &[Instruction]) -> u32 {
    list.iter().map(|i| i.price(block)).sum()
}

/// The bytes of a list.
pub fn write(list: &[Instruction]) -> Vec<u8> {
    let mut bytes = vec![VERSION, 0, 0, list.len() as u8];
    for instruction in list {
        append_record(&mut bytes, &record_of(instruction));
    }
    set_stated_length(&mut bytes);
    bytes
}

fn record_of(instruction: &Instruction) -> Vec<u8> {
    match *instruction {
        Single { statement } => vec![0, statement],
        Load { register, lanes, array, index } => vec![1, register, lanes, array, index],
        Constants { register, lanes, values } => {
            let mut record = vec![2, register, lanes];
            for value in values.iter().take(usize::from(lanes)) {
                record.extend(value.to_be_bytes());
            }
            record
        }
        Gather { register, lanes, operands } => {
            let mut record = vec![3, register, lanes];
            for operand in operands.iter().take(usize::from(lanes)) {
                append_operand(&mut record, *operand);
            }
            record
        }
        Operate { register, operation, lanes, left, right } => {
            let mut record = vec![4, register, operation, lanes, left];
            record.extend(right);
            record
        }
        Store { register, lanes, array, index } => vec![5, register, lanes, array, index],
        StoreLane { register, lane, array, index } => vec![6, register, lane, array, index],
        Extract { register, lane, variable } => vec![7, register, lane, variable],
    }
}

/// Reads a list by its bytes alone: every fault here is an 8.
pub fn read(bytes: &[u8]) -> Result<Vec<Instruction>, Refusal> {
    read_all(bytes).ok_or(Refusal::ListForm)
}

fn read_all(bytes: &[u8]) -> Option<Vec<Instruction>> {
    let mut cursor = Cursor::new(bytes);
    let version = cursor.byte()?;
    let stated = usize::from(cursor.pair()?);
    let count = usize::from(cursor.byte()?);
    if version != VERSION || stated != bytes.len() || count > MOST_INSTRUCTIONS {
        return None;
    }
    let mut list = Vec::new();
    for _ in 0..count {
        let mut record = cursor.record()?;
        list.push(read_instruction(&mut record)?);
        if !record.at_end() {
            return None;
        }
    }
    cursor.at_end().then_some(list)
}

fn read_instruction(record: &mut Cursor) -> Option<Instruction> {
    match record.byte()? {
        0 => Some(Single { statement: record.byte()? }),
        1 => {
            let (register, lanes, array, index) = read_row(record)?;
            Some(Load { register, lanes, array, index })
        }
        2 => read_constants(record),
        3 => read_gather(record),
        4 => read_operate(record),
        5 => {
            let (register, lanes, array, index) = read_row(record)?;
            Some(Store { register, lanes, array, index })
        }
        6 => {
            let (register, lane) = (record.byte()?, record.byte()?);
            Some(StoreLane { register, lane, array: record.byte()?, index: record.byte()? })
        }
        7 => {
            let (register, lane) = (record.byte()?, record.byte()?);
            Some(Extract { register, lane, variable: record.byte()? })
        }
        _ => None,
    }
}

/// The fields that L and W share: register, lanes, array and index.
fn read_row(record: &mut Cursor) -> Option<(u8, u8, u8, u8)> {
    Some((record.byte()?, read_lanes(record)?, record.byte()?, record.byte()?))
}

fn read_lanes(record: &mut Cursor) -> Option<u8> {
    record.byte().filter(|&lanes| lanes == 2 || lanes == 4)
}

fn read_constants(record: &mut Cursor) -> Option<Instruction> {
    let register = record.byte()?;
    let lanes = read_lanes(record)?;
    let mut values = [0; MOST_LANES];
    for value in values.iter_mut().take(usize::from(lanes)) {
        *value = record.word()?;
    }
    Some(Constants { register, lanes, values })
}

fn read_gather(record: &mut Cursor) -> Option<Instruction> {
    let register = record.byte()?;
    let lanes = read_lanes(record)?;
    let mut operands = [Operand::Nothing; MOST_LANES];
    for operand in operands.iter_mut().take(usize::from(lanes)) {
        *operand = record.operand()?;
    }
    Some(Gather { register, lanes, operands })
}

fn read_operate(record: &mut Cursor) -> Option<Instruction> {
    let register = record.byte()?;
    let operation = record.byte().filter(|&o| o <= SHIFT_RIGHT)?;
    let lanes = read_lanes(record)?;
    let left = record.byte()?;
    let right = match operation {
        COPY => None,
        _ => Some(record.byte()?),
    };
    Some(Operate { register, operation, lanes, left, right })
}

/// Tests a list that reads well against its block and itself: every fault here is a 9.
pub fn allow(block: &Block, list: &[Instruction]) -> Result<(), Refusal> {
    // The lanes of each register written so far, by its number.
    let mut registers: Vec<u8> = Vec::new();
    for instruction in list {
        if !allowed(block, &registers, instruction) {
            return Err(Refusal::ListRule);
        }
        if let Some((register, lanes)) = instruction.written() {
            if usize::from(register) != registers.len() || registers.len() == MOST_REGISTERS {
                return Err(Refusal::ListRule);
            }
            registers.push(lanes);
        }
    }
    Ok(())
}

/// All rules but the one for the number of a new register.
fn allowed(block: &Block, registers: &[u8], instruction: &Instruction) -> bool {
    let lanes_of = |register: u8| registers.get(usize::from(register)).copied();
    let has_lane = |register: u8, lane: u8| lanes_of(register).is_some_and(|k| lane < k);
    match *instruction {
        Single { statement } => statement < block.statement_count,
        Load { lanes, array, index, .. } => block.declares_row(array, index, lanes),
        Constants { .. } => true,
        Gather { operands, .. } => operands.iter().all(|&o| block.declares_operand(o)),
        Operate { lanes, left, right, .. } => {
            lanes_of(left) == Some(lanes) && right.is_none_or(|r| lanes_of(r) == Some(lanes))
        }
        Store { register, lanes, array, index } => {
            lanes_of(register) == Some(lanes) && block.declares_row(array, index, lanes)
        }
        StoreLane { register, lane, array, index } => {
            has_lane(register, lane) && block.declares(Place::Cell(array, index))
        }
        Extract { register, lane, variable } => {
            has_lane(register, lane) && block.declares(Place::Variable(variable))
        }
    }
}
