//! The patterns of statements that the generator puts blocks together from. Each is made so that
//! some phase of document 01 has work to do.

use crate::block::SHIFT_RIGHT;
use crate::block::{Block, Operand, Place, Statement, COPY, MOST_STATEMENTS, MOST_VARIABLES};
use crate::random::Random;

/// A block in the making. Its arrays have at least 8 cells where patterns are used.
pub struct Draft<'a> {
    pub random: &'a mut Random,
    pub block: Block,
}

/// How `lockstep` chooses, in percent.
#[derive(Clone, Copy)]
pub struct Style {
    pub copies: usize,
    pub constants: usize,
    pub cells_read: usize,
    pub cells_written: usize,
    /// Operands that are no rows: any place at all, lane by lane.
    pub scattered: usize,
    /// Steps where left and right change places in some lanes.
    pub crossed: usize,
    /// Variables are taken from the lowest so many.
    pub variables: usize,
}

pub const PLAIN: Style = Style {
    copies: 15,
    constants: 20,
    cells_read: 35,
    cells_written: 40,
    scattered: 5,
    crossed: 15,
    variables: 32,
};

/// The variables defined so far in each of two lanes, and the number of the next one.
struct TwoLanes {
    defined: Vec<[Place; 2]>,
    next: u8,
}

impl TwoLanes {
    /// The next variable; after the last comes the first again.
    fn variable(&mut self) -> Place {
        self.next = (self.next + 1) % MOST_VARIABLES;
        Place::Variable(self.next)
    }

    /// Two new variables, which count as defined.
    fn variables(&mut self) -> [Place; 2] {
        let variables = [self.variable(), self.variable()];
        self.defined.push(variables);
        variables
    }
}

impl<'a> Draft<'a> {
    pub fn new(random: &'a mut Random, variables: u8, live_out: u8, lengths: &[u16]) -> Draft<'a> {
        let mut block = Block { variables, live_out, ..Block::EMPTY };
        block.arrays = lengths.len() as u8;
        block.lengths[..lengths.len()].copy_from_slice(lengths);
        Draft { random, block }
    }

    pub fn room(&self) -> usize {
        MOST_STATEMENTS - usize::from(self.block.statement_count)
    }

    /// Adds statements as far as the block takes them.
    pub fn push(&mut self, statements: &[Statement]) {
        for statement in statements.iter().take(self.room()) {
            self.block.statements[usize::from(self.block.statement_count)] = *statement;
            self.block.statement_count += 1;
        }
    }

    pub fn shuffle(&mut self) {
        let count = usize::from(self.block.statement_count);
        self.random.shuffle(&mut self.block.statements[..count]);
    }

    pub fn array(&mut self) -> u8 {
        self.random.below(usize::from(self.block.arrays)) as u8
    }

    pub fn variable(&mut self) -> u8 {
        self.random.below(usize::from(self.block.variables)) as u8
    }

    pub fn cell(&mut self) -> Place {
        let array = self.array();
        let index = self.random.below(usize::from(self.block.lengths[usize::from(array)]));
        Place::Cell(array, index as u8)
    }

    /// Any declared place; the block must have one.
    pub fn place(&mut self) -> Place {
        let wants_cell = self.random.percent(50);
        if self.block.variables == 0 || self.block.arrays > 0 && wants_cell {
            self.cell()
        } else {
            Place::Variable(self.variable())
        }
    }

    pub fn constant(&mut self) -> Operand {
        Operand::Constant(self.random.value())
    }

    pub fn operand(&mut self) -> Operand {
        match self.random.below(4) {
            0 => self.constant(),
            _ => Operand::Held(self.place()),
        }
    }

    /// Any operation but copy.
    pub fn operation(&mut self) -> u8 {
        self.random.between(1, usize::from(SHIFT_RIGHT)) as u8
    }

    /// A statement of independent random parts, one in eight a copy.
    pub fn any_statement(&mut self) -> Statement {
        let (destination, left) = (self.place(), self.operand());
        let operation = self.random.below(8) as u8;
        let right = if operation == COPY { Operand::Nothing } else { self.operand() };
        Statement { operation, destination, left, right }
    }

    /// Cells in a row, as operands or destinations.
    pub fn row(&mut self, lanes: usize) -> Vec<Place> {
        let array = self.array();
        let length = usize::from(self.block.lengths[usize::from(array)]);
        let start = self.random.below((length + 1).saturating_sub(lanes));
        (start..start + lanes).map(|i| Place::Cell(array, (i % length) as u8)).collect()
    }

    /// `c[i] = a[i] op b[i]` for so many lanes, in ascending order.
    pub fn stencil(&mut self, lanes: usize) -> Vec<Statement> {
        let (operation, to, from) = (self.operation(), self.row(lanes), self.row(lanes));
        let other = self.row(lanes);
        lane_by_lane(operation, &to, &held(&from), &held(&other))
    }

    /// One operand for each lane: a row, constants, earlier results, or scattered operands.
    fn lane_operands(
        &mut self,
        lanes: usize,
        earlier: &[Vec<Place>],
        style: Style,
    ) -> Vec<Operand> {
        if self.random.percent(style.scattered) {
            return (0..lanes).map(|_| self.operand()).collect();
        }
        if self.random.percent(style.constants) {
            let shared = self.constant();
            let equal = self.random.percent(50);
            return (0..lanes).map(|_| if equal { shared } else { self.constant() }).collect();
        }
        let places = if earlier.is_empty() || self.random.percent(style.cells_read) {
            self.row(lanes)
        } else {
            earlier[self.random.below(earlier.len())].clone()
        };
        places.into_iter().map(Operand::Held).collect()
    }

    fn lane_destinations(&mut self, lanes: usize, style: Style) -> Vec<Place> {
        let variables = style.variables.min(usize::from(self.block.variables));
        if variables < lanes || self.random.percent(style.cells_written) {
            return self.row(lanes);
        }
        let start = self.random.below(variables);
        (start..start + lanes).map(|v| Place::Variable((v % variables) as u8)).collect()
    }

    /// The same small expression in every lane, its steps in the order that is drawn: step by
    /// step, lane by lane, or mixed.
    pub fn lockstep(&mut self, lanes: usize, steps: usize, style: Style) -> Vec<Statement> {
        let mut earlier: Vec<Vec<Place>> = Vec::new();
        let mut by_step: Vec<Vec<Statement>> = Vec::new();
        for _ in 0..steps {
            let copy = self.random.percent(style.copies);
            let operation = if copy { COPY } else { self.operation() };
            let left = self.lane_operands(lanes, &earlier, style);
            let right = self.lane_operands(lanes, &earlier, style);
            let to = self.lane_destinations(lanes, style);
            let mut step = lane_by_lane(operation, &to, &left, &right);
            if !copy && self.random.percent(style.crossed) {
                self.cross(&mut step);
            }
            by_step.push(step);
            earlier.push(to);
        }
        self.ordered(by_step, lanes)
    }

    /// Exchanges left and right in some lanes, so that pairs read at differing positions.
    fn cross(&mut self, step: &mut [Statement]) {
        for statement in step {
            if self.random.percent(50) {
                std::mem::swap(&mut statement.left, &mut statement.right);
            }
        }
    }

    fn ordered(&mut self, by_step: Vec<Vec<Statement>>, lanes: usize) -> Vec<Statement> {
        let order = self.random.below(3);
        if order == 0 {
            return by_step.concat();
        }
        if order == 1 {
            return (0..lanes).flat_map(|l| by_step.iter().map(move |s| s[l])).collect();
        }
        // Mixed: the next step of some lane, until all lanes are through.
        let mut next = vec![0; lanes];
        let mut mixed = Vec::new();
        while mixed.len() < lanes * by_step.len() {
            let lane = self.random.below(lanes);
            if next[lane] < by_step.len() {
                mixed.push(by_step[next[lane]][lane]);
                next[lane] += 1;
            }
        }
        mixed
    }

    /// Packs that wait for each other in a ring, like worked block 10, with `count` packs: the
    /// first lane of each reads the one before, and the last lane of the first reads the last.
    pub fn ring(&mut self, lanes: usize, count: usize) -> Vec<Statement> {
        let mut packs: Vec<Vec<Statement>> = (0..count).map(|_| self.seeds(lanes)).collect();
        for pack in 1..count {
            let lane = if pack == 1 { 0 } else { lanes - 1 };
            packs[pack][0].right = Operand::Held(packs[pack - 1][lane].destination);
        }
        packs[0][lanes - 1].right = Operand::Held(packs[count - 1][lanes - 1].destination);
        let mut statements = vec![packs[0][0]];
        statements.extend(packs[1..].concat());
        statements.extend(&packs[0][1..]);
        statements
    }

    /// A pack by its left cells, with its results in a row or in variables.
    fn seeds(&mut self, lanes: usize) -> Vec<Statement> {
        let (operation, from) = (self.operation(), self.row(lanes));
        let to = self.lane_destinations(lanes, Style { cells_written: 60, ..PLAIN });
        let right = self.lane_operands(lanes, &[], PLAIN);
        lane_by_lane(operation, &to, &held(&from), &right)
    }

    /// Two loaded variables, several readers of each, and stores that want those readers in
    /// differing pairs, so that extension has equal estimates to choose from.
    pub fn ties(&mut self) -> Vec<Statement> {
        let mut variables: Vec<u8> = (0..self.block.variables).collect();
        self.random.shuffle(&mut variables);
        let held = |number: usize| Operand::Held(Place::Variable(variables[number]));
        let from = self.row(2);
        let mut statements: Vec<Statement> = (0..2)
            .map(|lane| copy(Place::Variable(variables[lane]), Operand::Held(from[lane])))
            .collect();
        let readers = self.random.between(2, 5);
        let operation = self.operation();
        let mut middle: Vec<Statement> = Vec::new();
        for reader in 0..2 * readers {
            let left = held(reader % 2);
            let right = if self.random.percent(60) { self.constant() } else { left };
            let destination = Place::Variable(variables[2 + reader]);
            middle.push(Statement { operation, destination, left, right });
        }
        if self.random.percent(25) {
            self.cross(&mut middle);
        }
        self.random.shuffle(&mut middle);
        statements.extend(middle);
        for _ in 0..readers {
            statements.extend(self.ties_stores(readers, held));
        }
        statements
    }

    /// Two stores of readers, by copy or by another operation on two readers each.
    fn ties_stores(&mut self, readers: usize, held: impl Fn(usize) -> Operand) -> Vec<Statement> {
        let to = self.row(2);
        let operation = if self.random.percent(75) { COPY } else { self.operation() };
        let mut stores: Vec<Statement> = Vec::new();
        for (lane, destination) in to.into_iter().enumerate() {
            let left = held(2 + 2 * self.random.below(readers) + lane);
            let right = held(2 + 2 * self.random.below(readers) + lane);
            stores.push(match operation {
                COPY => copy(destination, left),
                _ => Statement { operation, destination, left, right },
            });
        }
        if operation != COPY && self.random.percent(30) {
            self.cross(&mut stores);
        }
        stores
    }

    /// Two lanes of what extension works on: definitions from constants, loads mixed with
    /// variables, users and stores, all over the same few variables and operations. Extension goes
    /// back only from a pair with cells, so loads that read variables stand in the middle.
    pub fn extension(&mut self) -> Vec<Statement> {
        let operations = [COPY, self.operation(), self.operation()];
        let mut lanes = TwoLanes { defined: Vec::new(), next: self.random.below(32) as u8 };
        let mut statements = Vec::new();
        let steps = self.random.between(4, 11);
        for step in 0..steps {
            let operation = self.random.pick(&operations);
            // 0 to 3 are definitions, loads, users and stores, mostly in this order.
            let part =
                if self.random.percent(80) { 4 * step / steps } else { self.random.below(4) };
            let mut pair = self.extension_pair(&mut lanes, operation, part);
            if operation != COPY && self.random.percent(15) {
                self.cross(&mut pair);
            }
            if part == 2 && self.random.percent(40) {
                // A twin of one user, so that the other has two to go with.
                let lane = self.random.below(2);
                let mut places = [pair[0].destination, pair[1].destination];
                places[lane] = lanes.variable();
                lanes.defined.push(places);
                pair.push(Statement { destination: places[lane], ..pair[lane] });
            }
            statements.extend(pair);
        }
        statements
    }

    /// Constants, loads that read them, users that read both, and stores of users and their twins:
    /// here it matters that one visit goes to definitions before it goes to uses.
    pub fn twins(&mut self) -> Vec<Statement> {
        let mut lanes = TwoLanes { defined: Vec::new(), next: self.random.below(32) as u8 };
        let (load, work) = (self.operation(), self.operation());
        let (constants, loads, row) = (lanes.variables(), lanes.variables(), self.row(2));
        let mut statements = Vec::new();
        for place in constants {
            statements.push(copy(place, self.constant()));
        }
        for lane in 0..2 {
            let (left, right) = (Operand::Held(row[lane]), Operand::Held(constants[lane]));
            let destination = loads[lane];
            statements.push(Statement { operation: load, destination, left, right });
        }
        let users = [lanes.variables(), lanes.variables()];
        let order = self.random.pick(&[[0, 1], [1, 0]]);
        for lane in [0, 1, 1, 0] {
            let twin = statements.len() / 6;
            let (left, right) = (Operand::Held(loads[lane]), Operand::Held(constants[lane]));
            let destination = users[twin][lane];
            statements.push(Statement { operation: work, destination, left, right });
        }
        for twin in order {
            let row = self.row(2);
            statements.push(copy(row[0], Operand::Held(users[0][0])));
            statements.push(copy(row[1], Operand::Held(users[twin][1])));
        }
        statements
    }

    /// One statement for each of two lanes.
    fn extension_pair(
        &mut self,
        lanes: &mut TwoLanes,
        operation: u8,
        part: usize,
    ) -> Vec<Statement> {
        let row = self.row(2);
        let left = match part {
            1 => [Operand::Held(row[0]), Operand::Held(row[1])],
            _ => self.extension_operands(lanes, part == 0),
        };
        let constant = part == 0 || self.random.percent(30);
        let other = self.extension_operands(lanes, constant);
        let right = if self.random.percent(20) { left } else { other };
        let to = match part {
            3 => [row[0], row[1]],
            _ => lanes.variables(),
        };
        lane_by_lane(operation, &to, &left, &right)
    }

    /// Operands for two lanes: constants, or variables that were defined, most of them lately and
    /// now and then of differing definitions.
    fn extension_operands(&mut self, lanes: &TwoLanes, constant: bool) -> [Operand; 2] {
        let count = lanes.defined.len();
        if constant || count == 0 {
            return [self.constant(), self.constant()];
        }
        let recent = if self.random.percent(60) { count.saturating_sub(2) } else { 0 };
        let first = self.random.between(recent, count - 1);
        let other = self.random.below(count);
        let second = if self.random.percent(12) { other } else { first };
        [Operand::Held(lanes.defined[first][0]), Operand::Held(lanes.defined[second][1])]
    }

    /// A pack into variables, some of them overwritten, read singly, or read as a pack afterwards.
    pub fn overwritten(&mut self) -> Vec<Statement> {
        let lanes = self.random.pick(&[2, 2, 4]);
        let style = Style { cells_written: 0, variables: 8, ..PLAIN };
        let to = self.lane_destinations(lanes, style);
        let mut statements = self.seeds(lanes);
        for (statement, &place) in statements.iter_mut().zip(&to) {
            statement.destination = place;
        }
        for &place in &to {
            match self.random.below(4) {
                0 => statements.push(copy(place, self.constant_or_cell())),
                1 => statements.push(copy(self.cell(), Operand::Held(place))),
                2 => {
                    let operation = self.operation();
                    let (left, right) = (Operand::Held(place), self.operand());
                    statements.push(Statement { operation, destination: place, left, right });
                }
                _ => {}
            }
        }
        let stores = self.row(lanes);
        if self.random.percent(70) {
            statements.extend(stores.iter().zip(&to).map(|(&s, &v)| copy(s, Operand::Held(v))));
        }
        statements
    }

    fn constant_or_cell(&mut self) -> Operand {
        if self.random.percent(50) {
            self.constant()
        } else {
            Operand::Held(self.cell())
        }
    }

    /// Packs over few tuples, so that registers are found again, with now and then a store into
    /// one of the cells that they hold.
    pub fn reuse(&mut self) -> Vec<Statement> {
        let lanes = self.random.pick(&[2, 4]);
        let tuples: Vec<Vec<Operand>> =
            (0..3).map(|_| self.lane_operands(lanes, &[], PLAIN)).collect();
        let mut statements = Vec::new();
        for _ in 0..self.random.between(3, 6) {
            let (operation, to) = (self.operation(), self.row(lanes));
            let left = self.random.below(3);
            let right = self.random.below(3);
            statements.extend(lane_by_lane(operation, &to, &tuples[left], &tuples[right]));
            if self.random.percent(30) {
                if let Operand::Held(place) = tuples[left][self.random.below(lanes)] {
                    statements.push(copy(place, self.constant()));
                }
            }
        }
        statements
    }

    /// A row of destinations whose operands are no rows, or a row of operands whose destinations
    /// are none: G with cells and D.
    pub fn gathers(&mut self) -> Vec<Statement> {
        let lanes = self.random.pick(&[2, 2, 4]);
        let (operation, from) = (self.operation(), self.row(lanes));
        let mut to = self.row(lanes);
        let style = Style { scattered: 60, ..PLAIN };
        let right = self.lane_operands(lanes, &[], style);
        if self.random.percent(50) {
            to.reverse();
        }
        lane_by_lane(operation, &to, &held(&from), &right)
    }
}

fn held(places: &[Place]) -> Vec<Operand> {
    places.iter().map(|&place| Operand::Held(place)).collect()
}

/// One operation, a statement for each lane. A copy has no right operand.
fn lane_by_lane(
    operation: u8,
    to: &[Place],
    left: &[Operand],
    right: &[Operand],
) -> Vec<Statement> {
    (0..to.len())
        .map(|lane| match operation {
            COPY => copy(to[lane], left[lane]),
            _ => {
                Statement { operation, destination: to[lane], left: left[lane], right: right[lane] }
            }
        })
        .collect()
}

pub fn copy(destination: Place, left: Operand) -> Statement {
    Statement { operation: COPY, destination, left, right: Operand::Nothing }
}
