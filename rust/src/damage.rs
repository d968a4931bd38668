//! Damaged blocks and lists, and lists drawn at random. The stated length is often repaired, so
//! that the tests behind it are reached.

use crate::block::{Block, Operand, Place, COPY};
use crate::format::set_stated_length;
use crate::list::{self, Instruction, MOST_LANES};
use crate::random::Random;

/// Damages the bytes of a block in one to three places.
pub fn damage_block(random: &mut Random, bytes: &mut Vec<u8>) {
    let header = 7 + 2 * usize::from(bytes.get(5).copied().unwrap_or(0).min(8));
    for _ in 0..random.between(1, 3) {
        match random.below(5) {
            // Versions, counts and array lengths.
            0 => change(random, bytes, 0, header),
            1 => change_record(random, bytes, header),
            _ => damage_anything(random, bytes, header),
        }
    }
    repair(random, bytes);
}

/// Damages the bytes of a list in one to three places; often only what a record names.
pub fn damage_list(random: &mut Random, bytes: &mut Vec<u8>) {
    for _ in 0..random.pick(&[1, 1, 1, 2, 3]) {
        match random.below(8) {
            0 => change(random, bytes, 0, 4),
            1 => change_record(random, bytes, 4),
            2 => damage_anything(random, bytes, 4),
            _ => change_field(random, bytes, 4),
        }
    }
    repair(random, bytes);
}

/// Changes a byte behind the code of a record.
fn change_field(random: &mut Random, bytes: &mut [u8], header: usize) {
    let starts = record_starts(bytes, header);
    if !starts.is_empty() {
        let start = random.pick(&starts);
        let end = start + 1 + usize::from(bytes[start]);
        change(random, bytes, start + 2, end);
    }
}

fn repair(random: &mut Random, bytes: &mut [u8]) {
    if bytes.len() >= 3 && bytes.len() <= 65_535 && random.percent(85) {
        set_stated_length(bytes);
    }
}

/// Changes one byte of a part to one near it, to a small one, or to any.
fn change(random: &mut Random, bytes: &mut [u8], from: usize, to: usize) {
    let to = to.min(bytes.len());
    if from < to {
        let at = from + random.below(to - from);
        bytes[at] = match random.below(4) {
            0 => bytes[at].wrapping_add(1),
            1 => bytes[at].wrapping_sub(1),
            2 => random.below(10) as u8,
            _ => random.byte(),
        };
    }
}

fn damage_anything(random: &mut Random, bytes: &mut Vec<u8>, header: usize) {
    let length = bytes.len();
    let (at, other) = (random.below(length), random.below(length));
    match random.below(7) {
        0 => bytes.truncate(at),
        1 => {
            let more = random.between(1, 4);
            bytes.extend((0..more).map(|_| random.below(4) as u8));
        }
        2 if length > 0 => bytes.swap(at, other),
        3 if length > 0 => {
            bytes.remove(at);
        }
        4 => bytes.insert(at, random.below(8) as u8),
        5 => swap_records(random, bytes, header),
        _ => change(random, bytes, header, length),
    }
}

/// Where the records begin, as far as their count bytes lead.
fn record_starts(bytes: &[u8], header: usize) -> Vec<usize> {
    let mut starts = Vec::new();
    let mut at = header;
    while at < bytes.len() {
        starts.push(at);
        at += usize::from(bytes[at]) + 1;
    }
    starts
}

/// Changes one record: its count byte, a byte within it, or its length with the count made to fit.
fn change_record(random: &mut Random, bytes: &mut Vec<u8>, header: usize) {
    let starts = record_starts(bytes, header);
    if starts.is_empty() {
        return;
    }
    let start = random.pick(&starts);
    let end = (start + 1 + usize::from(bytes[start])).min(bytes.len());
    match random.below(4) {
        0 => change(random, bytes, start, start + 1),
        1 if bytes[start] < 255 => {
            bytes.insert(end, random.below(4) as u8);
            bytes[start] += 1;
        }
        2 if bytes[start] > 0 && end > start + 1 => {
            bytes.remove(end - 1);
            bytes[start] -= 1;
        }
        _ => change(random, bytes, start + 1, end),
    }
}

/// Swaps two records with the same count byte, which keeps the form and changes the meaning.
fn swap_records(random: &mut Random, bytes: &mut [u8], header: usize) {
    let starts = record_starts(bytes, header);
    if starts.len() < 2 {
        return;
    }
    let (one, other) = (random.pick(&starts), random.pick(&starts));
    let length = usize::from(bytes[one]) + 1;
    if bytes[one] == bytes[other] && one.max(other) + length <= bytes.len() {
        for offset in 0..length {
            bytes.swap(one + offset, other + offset);
        }
    }
}

/// A list for the block, drawn at random. Most are allowed; some name what they may not, and some
/// go to the limits of 160 instructions and 96 registers or one past them.
pub fn random_list(random: &mut Random, block: &Block) -> Vec<u8> {
    let faults = random.pick(&[0, 0, 0, 2, 10]);
    let count = random.pick(&[3, 8, 20, 40, 160, 160, 161]).min(random.between(1, 1000));
    // Where registers are sought, nothing else is drawn until there are so many.
    let sought = random.pick(&[0, 0, 0, 95, 96, 97]);
    let mut lanes: Vec<u8> = Vec::new();
    let mut list = Vec::new();
    for _ in 0..count {
        let code = if lanes.len() < sought {
            random.between(1, 4)
        } else if sought > 0 {
            random.pick(&[0, 5, 6, 7])
        } else {
            random.below(8)
        };
        let faulty = random.percent(faults);
        let drawn = Drawn { block, lanes: &lanes, faulty };
        if let Some(instruction) = drawn.instruction(random, code) {
            lanes.extend(instruction.written().map(|(_, k)| k));
            list.push(instruction);
        }
    }
    list::write(&list)
}

/// What an instruction is drawn from: the block and the lanes of the registers so far.
struct Drawn<'a> {
    block: &'a Block,
    lanes: &'a [u8],
    faulty: bool,
}

impl Drawn<'_> {
    /// An instruction of the code, if the block and the registers have what it takes.
    fn instruction(&self, random: &mut Random, code: usize) -> Option<Instruction> {
        let register = self.wrong(random, self.lanes.len());
        let lanes = random.pick(&[2, 4]);
        match code {
            0 if self.block.statement_count == 0 => None,
            0 => {
                let statement = random.below(usize::from(self.block.statement_count));
                Some(Instruction::Single { statement: self.wrong(random, statement) })
            }
            1 => {
                let (array, index) = self.row(random, lanes)?;
                Some(Instruction::Load { register, lanes, array, index })
            }
            2 => {
                let mut values = [0; MOST_LANES];
                values.iter_mut().take(usize::from(lanes)).for_each(|v| *v = random.value());
                Some(Instruction::Constants { register, lanes, values })
            }
            3 => {
                let mut operands = [Operand::Nothing; MOST_LANES];
                for operand in operands.iter_mut().take(usize::from(lanes)) {
                    *operand = self.operand(random);
                }
                Some(Instruction::Gather { register, lanes, operands })
            }
            4 => self.operate(random, register),
            _ => self.taken(random, code),
        }
    }

    /// The number, or now and then another one if a fault is wanted.
    fn wrong(&self, random: &mut Random, number: usize) -> u8 {
        if self.faulty && random.percent(40) {
            return random.pick(&[number as u8 ^ 1, (number as u8).wrapping_add(1), 255]);
        }
        number as u8
    }

    fn row(&self, random: &mut Random, lanes: u8) -> Option<(u8, u8)> {
        let array = random.below(self.block.array_lengths().len());
        let length = usize::from(*self.block.array_lengths().get(array)?);
        if length < usize::from(lanes) {
            return None;
        }
        let index = random.below(length + 1 - usize::from(lanes));
        Some((self.wrong(random, array), self.wrong(random, index)))
    }

    fn operand(&self, random: &mut Random) -> Operand {
        let variables = usize::from(self.block.variables);
        match (random.below(3), self.row(random, 1)) {
            (1, Some((array, index))) => Operand::Held(Place::Cell(array, index)),
            (2, _) if variables > 0 => {
                let variable = random.below(variables);
                Operand::Held(Place::Variable(self.wrong(random, variable)))
            }
            _ => Operand::Constant(random.value()),
        }
    }

    fn operate(&self, random: &mut Random, register: u8) -> Option<Instruction> {
        let left = random.below(self.lanes.len());
        let lanes = *self.lanes.get(left)?;
        let alike: Vec<usize> = (0..self.lanes.len()).filter(|&r| self.lanes[r] == lanes).collect();
        let right = random.pick(&alike);
        let operation = random.below(8) as u8;
        let left = self.wrong(random, left);
        let right = (operation != COPY).then(|| self.wrong(random, right));
        Some(Instruction::Operate { register, operation, lanes, left, right })
    }

    /// W, D or X from some register.
    fn taken(&self, random: &mut Random, code: usize) -> Option<Instruction> {
        let number = random.below(self.lanes.len());
        let lanes = *self.lanes.get(number)?;
        let register = self.wrong(random, number);
        let lane = random.below(usize::from(lanes));
        let lane = self.wrong(random, lane);
        if code == 7 {
            let variables = usize::from(self.block.variables);
            let variable = random.below(variables);
            let variable = self.wrong(random, variable);
            return (variables > 0).then_some(Instruction::Extract { register, lane, variable });
        }
        let (array, index) = self.row(random, if code == 5 { lanes } else { 1 })?;
        Some(match code {
            5 => Instruction::Store { register, lanes, array, index },
            _ => Instruction::StoreLane { register, lane, array, index },
        })
    }
}
