//! The five calls, with lent buffers and numbers for answers. A refusal returns zeros beside its
//! number (7 also the length needed) and leaves everything lent as it was.

use crate::block::Block;
use crate::card::Card;
use crate::choice::choose;
use crate::format;
use crate::list;
use crate::machine::Memory;
use crate::refusal::{Refusal, DONE};

/// What making a list returns.
#[derive(Clone, Copy, Debug, PartialEq, Eq)]
pub struct Made {
    pub status: u8,
    pub length: usize,
    pub block_price: u32,
    pub list_price: u32,
}

impl Made {
    fn refused(refusal: Refusal) -> Made {
        Made { status: refusal.number(), length: 0, block_price: 0, list_price: 0 }
    }
}

/// Reads a block: status and block, the empty one if refused.
pub fn read_block(bytes: &[u8]) -> (u8, Block) {
    match format::read(bytes) {
        Ok(block) => (DONE, block),
        Err(refusal) => (refusal.number(), Block::EMPTY),
    }
}

/// Writes a block into the room: status and length, which 7 returns too.
pub fn write_block(block: &Block, room: &mut [u8]) -> (u8, usize) {
    match format::write(block) {
        Ok(bytes) => (put(&bytes, room), bytes.len()),
        Err(refusal) => (refusal.number(), 0),
    }
}

/// Copies an answer into the room, if it fits; bytes past it keep their contents.
fn put(answer: &[u8], room: &mut [u8]) -> u8 {
    match room.get_mut(..answer.len()) {
        Some(part) => {
            part.copy_from_slice(answer);
            DONE
        }
        None => Refusal::Room.number(),
    }
}

/// Makes the list of a block into the room.
pub fn make_list(block_bytes: &[u8], room: &mut [u8]) -> Made {
    let block = match format::read(block_bytes) {
        Ok(block) => block,
        Err(refusal) => return Made::refused(refusal),
    };
    let (list, list_price) = choose(&block);
    let answer = list::write(&list);
    match put(&answer, room) {
        DONE => {
            let block_price = block.price();
            Made { status: DONE, length: answer.len(), block_price, list_price }
        }
        _ => Made { length: answer.len(), ..Made::refused(Refusal::Room) },
    }
}

/// Runs a block: status and price paid.
pub fn run_block(block_bytes: &[u8], variables: &mut [u32], cells: &mut [u32]) -> (u8, u32) {
    match read_beside(block_bytes, variables, cells) {
        Ok(block) => (DONE, Memory { block: &block, variables, cells }.run_block()),
        Err(refusal) => (refusal.number(), 0),
    }
}

/// Runs a list beside its block: status and price paid.
pub fn run_list(
    block_bytes: &[u8],
    list_bytes: &[u8],
    variables: &mut [u32],
    cells: &mut [u32],
) -> (u8, u32) {
    match read_both(block_bytes, list_bytes, variables, cells) {
        Ok((block, list)) => {
            let memory = Memory { block: &block, variables, cells };
            (DONE, Card { memory, registers: Vec::new() }.run(&list))
        }
        Err(refusal) => (refusal.number(), 0),
    }
}

/// The block first, then whether exactly its variables and cells are lent.
fn read_beside(bytes: &[u8], variables: &[u32], cells: &[u32]) -> Result<Block, Refusal> {
    let block = format::read(bytes)?;
    if variables.len() != usize::from(block.variables) || cells.len() != block.cell_count() {
        return Err(Refusal::Lent);
    }
    Ok(block)
}

/// The order of refusals for running a list: block, 6, all of 8, then 9.
fn read_both(
    block_bytes: &[u8],
    list_bytes: &[u8],
    variables: &[u32],
    cells: &[u32],
) -> Result<(Block, Vec<list::Instruction>), Refusal> {
    let block = read_beside(block_bytes, variables, cells)?;
    let list = list::read(list_bytes)?;
    list::allow(&block, &list)?;
    Ok((block, list))
}
