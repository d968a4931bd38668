//! "Emission": the instructions of the scheduled units, keeping account of what each register
//! holds and of which variables are still in a lane only.

use crate::block::{neighbours, Block, Operand, Place, Statement, COPY, MOST_VARIABLES};
use crate::combination::Unit;
use crate::list::{Instruction, MOST_LANES};

/// A register's tuple, its unused slots `Nothing`, and whether memory or lanes still agree with it.
struct Register {
    tuple: [Operand; MOST_LANES],
    lanes: u8,
    current: bool,
}

struct Emission<'a> {
    block: &'a Block,
    list: Vec<Instruction>,
    registers: Vec<Register>,
    /// For each variable whose value is in a lane and not in memory: register and lane.
    in_lane: [Option<(u8, u8)>; MOST_VARIABLES as usize],
}

/// The list of the units in their scheduled order.
pub fn emit(block: &Block, units: &[Unit]) -> Vec<Instruction> {
    let mut emission = Emission {
        block,
        list: Vec::new(),
        registers: Vec::new(),
        in_lane: [None; MOST_VARIABLES as usize],
    };
    for unit in units {
        match unit[..] {
            [statement] => emission.single(statement),
            _ => emission.pack(unit),
        }
    }
    for variable in 0..block.live_out {
        emission.extract(Operand::Held(Place::Variable(variable)));
    }
    emission.list
}

impl Emission<'_> {
    fn single(&mut self, number: usize) {
        let statement = self.block.statements[number];
        self.extract(statement.left);
        self.extract(statement.right);
        self.list.push(Instruction::Single { statement: number as u8 });
        self.overwrite(statement.destination);
    }

    fn pack(&mut self, unit: &Unit) {
        let lanes = unit.len() as u8;
        let operation = self.block.statements[unit[0]].operation;
        let left = self.fetch(self.tuple(unit, |s| s.left), lanes);
        let right = match operation {
            COPY => None,
            _ => Some(self.fetch(self.tuple(unit, |s| s.right), lanes)),
        };
        // The registers that this write ends do not include the one that it makes.
        for &number in unit {
            self.overwrite(self.block.statements[number].destination);
        }
        let tuple = self.tuple(unit, |s| Operand::Held(s.destination));
        let register = self.new_register(tuple, lanes);
        self.list.push(Instruction::Operate { register, operation, lanes, left, right });
        self.store(register, &tuple[..unit.len()]);
    }

    fn tuple(&self, unit: &Unit, part: fn(&Statement) -> Operand) -> [Operand; MOST_LANES] {
        let mut tuple = [Operand::Nothing; MOST_LANES];
        for (slot, &number) in tuple.iter_mut().zip(unit) {
            *slot = part(&self.block.statements[number]);
        }
        tuple
    }

    fn new_register(&mut self, tuple: [Operand; MOST_LANES], lanes: u8) -> u8 {
        let number = self.registers.len() as u8;
        self.registers.push(Register { tuple, lanes, current: true });
        number
    }

    /// The register that holds the tuple: a current one, or a new one that is fetched here.
    fn fetch(&mut self, tuple: [Operand; MOST_LANES], lanes: u8) -> u8 {
        let found =
            self.registers.iter().position(|r| r.current && r.lanes == lanes && r.tuple == tuple);
        if let Some(number) = found {
            return number as u8;
        }
        let register = self.new_register(tuple, lanes);
        let used = &tuple[..usize::from(lanes)];
        let instruction = if let Some((array, index)) = row(used) {
            Instruction::Load { register, lanes, array, index }
        } else if let Some(values) = constants(used) {
            Instruction::Constants { register, lanes, values }
        } else {
            for &operand in used {
                self.extract(operand);
            }
            Instruction::Gather { register, lanes, operands: tuple }
        };
        self.list.push(instruction);
        register
    }

    /// Puts a pack's results where they belong: cells into memory, variables into their lanes.
    fn store(&mut self, register: u8, destinations: &[Operand]) {
        let lanes = destinations.len() as u8;
        if let Some((array, index)) = row(destinations) {
            self.list.push(Instruction::Store { register, lanes, array, index });
            return;
        }
        for (lane, &destination) in (0..lanes).zip(destinations) {
            match destination {
                Operand::Held(Place::Cell(array, index)) => {
                    self.list.push(Instruction::StoreLane { register, lane, array, index });
                }
                Operand::Held(Place::Variable(variable)) => {
                    self.in_lane[usize::from(variable)] = Some((register, lane));
                }
                _ => {}
            }
        }
    }

    /// X, if the operand is a variable whose value is in a lane only; after it, memory has it too.
    fn extract(&mut self, operand: Operand) {
        if let Some(variable) = operand.variable() {
            if let Some((register, lane)) = self.in_lane[usize::from(variable)].take() {
                self.list.push(Instruction::Extract { register, lane, variable });
            }
        }
    }

    /// A write to the place: registers that hold it are no longer current, and a value that was
    /// still in a lane is dropped.
    fn overwrite(&mut self, place: Place) {
        for register in &mut self.registers {
            if register.current && register.tuple.contains(&Operand::Held(place)) {
                register.current = false;
            }
        }
        if let Place::Variable(variable) = place {
            self.in_lane[usize::from(variable)] = None;
        }
    }
}

/// Array and first index, if the operands are ascending neighbours of one array.
fn row(operands: &[Operand]) -> Option<(u8, u8)> {
    let ascending = operands.windows(2).all(|two| neighbours(two[0], two[1]));
    match operands.first() {
        Some(&Operand::Held(Place::Cell(array, index))) if ascending => Some((array, index)),
        _ => None,
    }
}

/// The values, if all operands are constants.
fn constants(operands: &[Operand]) -> Option<[u32; MOST_LANES]> {
    let mut values = [0; MOST_LANES];
    for (value, operand) in values.iter_mut().zip(operands) {
        match *operand {
            Operand::Constant(constant) => *value = constant,
            _ => return None,
        }
    }
    Some(values)
}
