//! "The block": its places, operands and statements as they are held in memory, and the price of
//! a statement and of a block.

pub const MOST_VARIABLES: u8 = 32;
pub const MOST_ARRAYS: usize = 8;
pub const MOST_CELLS: u16 = 256;
pub const MOST_STATEMENTS: usize = 64;

pub const COPY: u8 = 0;
pub const ADD: u8 = 1;
pub const SUBTRACT: u8 = 2;
pub const MULTIPLY: u8 = 3;
pub const AND: u8 = 4;
pub const OR: u8 = 5;
pub const EXCLUSIVE_OR: u8 = 6;
pub const SHIFT_RIGHT: u8 = 7;

/// A variable by its number, or a cell by its array and index.
#[derive(Clone, Copy, Debug, PartialEq, Eq)]
pub enum Place {
    Variable(u8),
    Cell(u8, u8),
}

/// What a statement works on. `Nothing` stands only in the right of a copy.
#[derive(Clone, Copy, Debug, PartialEq, Eq)]
pub enum Operand {
    Nothing,
    Constant(u32),
    Held(Place),
}

#[derive(Clone, Copy, Debug, PartialEq, Eq)]
pub struct Statement {
    pub operation: u8,
    pub destination: Place,
    pub left: Operand,
    pub right: Operand,
}

/// A block. Slots of `lengths` and `statements` past the counts are not part of it.
#[derive(Clone, Copy, Debug, PartialEq, Eq)]
pub struct Block {
    pub variables: u8,
    pub live_out: u8,
    pub arrays: u8,
    pub statement_count: u8,
    pub lengths: [u16; MOST_ARRAYS],
    pub statements: [Statement; MOST_STATEMENTS],
}

impl Operand {
    pub fn is_cell(self) -> bool {
        matches!(self, Operand::Held(Place::Cell(_, _)))
    }

    pub fn is_constant(self) -> bool {
        matches!(self, Operand::Constant(_))
    }

    /// The variable's number, if the operand is a variable.
    pub fn variable(self) -> Option<u8> {
        match self {
            Operand::Held(Place::Variable(number)) => Some(number),
            _ => None,
        }
    }
}

impl Place {
    pub fn is_cell(self) -> bool {
        matches!(self, Place::Cell(_, _))
    }
}

impl Statement {
    /// What stands in every slot that no statement fills.
    pub const ZERO: Statement = Statement {
        operation: COPY,
        destination: Place::Variable(0),
        left: Operand::Nothing,
        right: Operand::Nothing,
    };

    /// Both operand positions, left first; a copy's right one is `Nothing`.
    pub fn operands(&self) -> [Operand; 2] {
        [self.left, self.right]
    }

    pub fn reads(&self, place: Place) -> bool {
        self.left == Operand::Held(place) || self.right == Operand::Held(place)
    }

    /// The price of S: positions are counted, so a cell that is read twice is paid for twice.
    pub fn price(&self) -> u32 {
        let cells = self.operands().iter().filter(|o| o.is_cell()).count() as u32;
        cells + 1 + u32::from(self.destination.is_cell())
    }
}

impl Block {
    /// The block of no variables, arrays and statements; also what a refused reading returns.
    pub const EMPTY: Block = Block {
        variables: 0,
        live_out: 0,
        arrays: 0,
        statement_count: 0,
        lengths: [0; MOST_ARRAYS],
        statements: [Statement::ZERO; MOST_STATEMENTS],
    };

    /// The statements that the block has, without the slots past them.
    pub fn body(&self) -> &[Statement] {
        let count = usize::from(self.statement_count).min(MOST_STATEMENTS);
        &self.statements[..count]
    }

    /// The lengths of the arrays that the block has.
    pub fn array_lengths(&self) -> &[u16] {
        let count = usize::from(self.arrays).min(MOST_ARRAYS);
        &self.lengths[..count]
    }

    pub fn cell_count(&self) -> usize {
        self.array_lengths().iter().map(|&l| usize::from(l)).sum()
    }

    pub fn price(&self) -> u32 {
        self.body().iter().map(Statement::price).sum()
    }

    pub fn declares(&self, place: Place) -> bool {
        match place {
            Place::Variable(number) => number < self.variables,
            Place::Cell(array, index) => self.declares_row(array, index, 1),
        }
    }

    /// Whether `count` cells in a row, beginning at `index`, all lie in the array.
    pub fn declares_row(&self, array: u8, index: u8, count: u8) -> bool {
        match self.array_lengths().get(usize::from(array)) {
            Some(&length) => u16::from(index) + u16::from(count) <= length,
            None => false,
        }
    }

    pub fn declares_operand(&self, operand: Operand) -> bool {
        match operand {
            Operand::Held(place) => self.declares(place),
            _ => true,
        }
    }
}

/// Whether the second is the cell next above the first in the same array.
pub fn neighbours(first: Operand, second: Operand) -> bool {
    match (first, second) {
        (Operand::Held(Place::Cell(a, i)), Operand::Held(Place::Cell(b, j))) => {
            a == b && u16::from(j) == u16::from(i) + 1
        }
        _ => false,
    }
}
