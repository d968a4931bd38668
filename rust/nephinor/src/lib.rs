//! The five calls of the proved library: reading a block and writing one, making its list, and
//! running either on variables and cells that the caller lends. A call that is refused says why and
//! leaves everything lent as it was.
//!
//! ```no_run
//! // v0 = a[0] >> 33, where a has one cell: a count of 33 shifts by 1.
//! let block = [
//!     1, 0, 21, 1, 1, 1, 1, 0, 1, // version, length, the four counts, the length of a
//!     11, 7, 1, 0, 2, 0, 0, 0, 0, 0, 0, 33, // 11 bytes: shift right, v0, a[0], the constant 33
//! ];
//! let (mut variables, mut cells) = ([0], [8]);
//! let ran = nephinor::run_block(&block, &mut variables, &mut cells).expect("it is a block");
//! assert_eq!((ran.price, variables, cells), (2, [4], [8]));
//! ```
//!
//! `calls` has the same calls with the library's own numbers for answers. What the bytes of a block and
//! of a list mean is said in `include/nephinor.h`.

#[cfg(not(target_arch = "x86_64"))]
mod absent;
mod block;
pub mod calls;
mod refusal;

pub use block::{Block, Operand, Operation, Place, Statement};
pub use refusal::Refusal;

use calls::{Answer, TABLE};

/// A block declares at most so many variables.
pub const MOST_VARIABLES: usize = 32;

/// A block declares at most so many arrays.
pub const MOST_ARRAYS: usize = 8;

/// A block has at most so many statements.
pub const MOST_STATEMENTS: usize = 64;

/// An array has at least one cell, and at most so many.
pub const MOST_CELLS_OF_AN_ARRAY: usize = 256;

/// A list has at most so many instructions.
pub const MOST_INSTRUCTIONS: usize = 160;

/// A list writes at most so many registers.
pub const MOST_REGISTERS: usize = 96;

/// No block that is read or written takes more bytes: proved, `block_length` in
/// crates/theorems/proofs/BlockRoundTrip.antt.
pub const MOST_BLOCK_BYTES: usize = 983;

/// A room of so many bytes fits every list that is made: proved, `room_enough` in
/// crates/theorems/proofs/Alike.antt.
pub const LIST_ROOM: usize = 3844;

/// A list that was made: how many bytes of the room it takes, and what block and list cost.
#[derive(Clone, Copy, Debug, PartialEq, Eq)]
pub struct Made {
    pub length: usize,
    pub block_price: u16,
    /// Never above the block's price, and below it exactly when the list has a vector instruction.
    pub list_price: u16,
}

/// A block or list that was run.
#[derive(Clone, Copy, Debug, PartialEq, Eq)]
pub struct Ran {
    /// The price paid.
    pub price: u16,
}

/// Reads a block's bytes.
pub fn read_block(bytes: &[u8]) -> Result<Block, Refusal> {
    let mut table = [0; TABLE];
    done(calls::read_block(bytes, &mut table))?;
    Ok(Block::of_table(&table))
}

/// Writes a block's bytes into the room and returns how many these are. Bytes past them keep their
/// contents.
pub fn write_block(block: &Block, room: &mut [u8]) -> Result<usize, Refusal> {
    let written = done(calls::write_block(&block.table(), room))?;
    Ok(usize::from(written.size))
}

/// Makes the list of a block into the room. Bytes past the list keep their contents.
pub fn make_list(block: &[u8], room: &mut [u8]) -> Result<Made, Refusal> {
    let made = done(calls::make_list(block, room))?;
    Ok(Made {
        length: usize::from(made.size),
        block_price: made.price,
        list_price: made.list_price,
    })
}

/// Runs a block, as the workstation does, on exactly as many variables and cells as it declares. The
/// cells stand array after array.
pub fn run_block(block: &[u8], variables: &mut [u32], cells: &mut [u32]) -> Result<Ran, Refusal> {
    let ran = done(calls::run_block(block, variables, cells))?;
    Ok(Ran { price: ran.price })
}

/// Runs a list beside its block, as the card does. The list that was made for a block leaves every
/// cell and every live-out variable as the block does; other variables may differ.
pub fn run_list(
    block: &[u8],
    list: &[u8],
    variables: &mut [u32],
    cells: &mut [u32],
) -> Result<Ran, Refusal> {
    let ran = done(calls::run_list(block, list, variables, cells))?;
    Ok(Ran { price: ran.price })
}

/// The answer, if the call was not refused.
fn done(answer: Answer) -> Result<Answer, Refusal> {
    match Refusal::of(answer) {
        None => Ok(answer),
        Some(refusal) => Err(refusal),
    }
}
