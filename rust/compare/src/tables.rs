//! A block as a table of 652 numbers: variables, live out, arrays, count, the 8 lengths, then for each
//! of the 64 statements its operation and three numbers each for destination, left and right.

use crate::library::TABLE;
use second::block::{Block, Operand, Place, Statement};
use second::random::Random;

fn place_numbers(place: Place) -> [u32; 3] {
    match place {
        Place::Variable(number) => [1, number.into(), 0],
        Place::Cell(array, index) => [2, array.into(), index.into()],
    }
}

fn operand_numbers(operand: Operand) -> [u32; 3] {
    match operand {
        Operand::Constant(value) => [0, value, 0],
        Operand::Held(place) => place_numbers(place),
        Operand::Nothing => [3, 0, 0],
    }
}

/// The table of a block.
pub fn table_of(block: &Block) -> Vec<u32> {
    let counts = [block.variables, block.live_out, block.arrays, block.statement_count];
    let mut numbers: Vec<u32> = counts.into_iter().map(u32::from).collect();
    numbers.extend(block.lengths.into_iter().map(u32::from));
    for statement in &block.statements {
        numbers.push(statement.operation.into());
        numbers.extend(place_numbers(statement.destination));
        numbers.extend(operand_numbers(statement.left));
        numbers.extend(operand_numbers(statement.right));
    }
    assert_eq!(numbers.len(), TABLE);
    numbers
}

/// A place's numbers, or 4 where they are no place, with what is not declared kept for later.
fn place_said(numbers: &[u32]) -> Result<(u32, u32, u32), u8> {
    match *numbers {
        [1, number, 0] => Ok((1, number, 0)),
        [2, array, index] => Ok((2, array, index)),
        _ => Err(4),
    }
}

/// An operand's numbers, likewise.
fn operand_said(numbers: &[u32]) -> Result<(u32, u32, u32), u8> {
    match *numbers {
        [0, value, 0] => Ok((0, value, 0)),
        [3, 0, 0] => Ok((3, 0, 0)),
        _ => place_said(numbers),
    }
}

/// The block that a table says, or the number by which it is refused: 2 if it is short, then 3, 4
/// and 5, each over all that is declared. A number that stands for nothing must be 0, else 4.
pub fn block_said(numbers: &[u32]) -> Result<Block, u8> {
    if numbers.len() < TABLE {
        return Err(2);
    }
    let [variables, live, arrays, count] = [numbers[0], numbers[1], numbers[2], numbers[3]];
    if variables > 32 || live > variables || arrays > 8 || count > 64 {
        return Err(3);
    }
    let lengths = &numbers[4..4 + arrays as usize];
    if lengths.iter().any(|&length| !(1..=256).contains(&length)) {
        return Err(3);
    }
    let mut said = Vec::new();
    for row in numbers[12..12 + 10 * count as usize].chunks(10) {
        let destination = place_said(&row[1..4])?;
        let (left, right) = (operand_said(&row[4..7])?, operand_said(&row[7..10])?);
        if row[0] > 7 || left.0 == 3 || (right.0 == 3) != (row[0] == 0) {
            return Err(4);
        }
        said.push((row[0], destination, left, right));
    }
    let operand = |(kind, first, second): (u32, u32, u32)| match kind {
        0 => Ok(Operand::Constant(first)),
        1 if first < variables => Ok(Operand::Held(Place::Variable(first as u8))),
        2 if first < arrays && second < lengths[first as usize] => {
            Ok(Operand::Held(Place::Cell(first as u8, second as u8)))
        }
        3 => Ok(Operand::Nothing),
        _ => Err(5),
    };
    let mut block = Block::EMPTY;
    (block.variables, block.live_out) = (variables as u8, live as u8);
    (block.arrays, block.statement_count) = (arrays as u8, count as u8);
    for (slot, &length) in block.lengths.iter_mut().zip(lengths) {
        *slot = length as u16;
    }
    for (slot, (operation, destination, left, right)) in block.statements.iter_mut().zip(said) {
        let Operand::Held(destination) = operand(destination)? else { return Err(4) };
        let (left, right) = (operand(left)?, operand(right)?);
        *slot = Statement { operation: operation as u8, destination, left, right };
    }
    Ok(block)
}

/// Changes a few numbers, mostly of what is declared, to others near them or at a limit.
pub fn damage_table(random: &mut Random, numbers: &mut [u32]) {
    const LIMITS: [u32; 12] = [0, 1, 2, 3, 4, 8, 255, 256, 257, 65_535, 65_536, u32::MAX];
    let rows = 10 * (numbers[3] as usize).clamp(1, 64);
    for _ in 0..random.pick(&[1, 1, 1, 2, 3]) {
        let at = match random.below(8) {
            0 => random.below(12),
            1 => random.below(TABLE),
            _ => 12 + random.below(rows),
        };
        numbers[at] = match random.below(4) {
            0 => numbers[at].wrapping_add(1),
            1 => numbers[at].wrapping_sub(1),
            2 => random.pick(&LIMITS),
            _ => random.draw() as u32,
        };
    }
}
