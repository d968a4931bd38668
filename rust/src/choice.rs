//! "Making the list" as a whole, and "Choice": the packed list if it is cheaper, else the block's
//! statements one by one.

use crate::block::Block;
use crate::combination::{units, Unit};
use crate::dependence::{definitions, rows, Rows};
use crate::emission::emit;
use crate::extension::extend;
use crate::list::{price, Instruction};
use crate::pairs::Pairs;
use crate::schedule::schedule;
use crate::seeding::seed;

/// All pairs that seeding and extension admit.
pub fn all_pairs(block: &Block, rows: &Rows) -> Pairs {
    let mut pairs = seed(block, rows);
    extend(block, rows, &definitions(block), &mut pairs);
    pairs
}

/// The units as they are cut, before any is dissolved.
pub fn cut_units(block: &Block, rows: &Rows) -> Vec<Unit> {
    units(block, rows, &all_pairs(block, rows))
}

/// The packed list, before the choice.
pub fn packed_list(block: &Block) -> Vec<Instruction> {
    let rows = rows(block);
    emit(block, &schedule(cut_units(block, &rows), &rows))
}

/// The list that is the answer, with its price.
pub fn choose(block: &Block) -> (Vec<Instruction>, u32) {
    let packed = packed_list(block);
    let packed_price = price(block, &packed);
    if packed_price < block.price() {
        return (packed, packed_price);
    }
    let singles = (0..block.statement_count).map(|statement| Instruction::Single { statement });
    (singles.collect(), block.price())
}
