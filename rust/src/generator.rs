//! Generated blocks by kind. A kind and a number always give the same block, so that another
//! library can be compared on the very same ones.

use crate::block::{Block, Operand, Place, Statement, COPY};
use crate::patterns::{Draft, Style, PLAIN};
use crate::random::Random;

#[derive(Clone, Copy, Debug, PartialEq, Eq)]
pub enum Kind {
    Uniform,
    Stencils,
    Ties,
    Extension,
    Dissolving,
    OverwrittenLanes,
    Copies,
    LongChains,
    SixtyFour,
    RegisterReuse,
    LiveOut,
    FewPlaces,
    Constants,
    Tiny,
    Limits,
    Fullest,
    Expressions,
    Gathers,
    Mixed,
}

pub const ALL: [Kind; 19] = [
    Kind::Uniform,
    Kind::Stencils,
    Kind::Ties,
    Kind::Extension,
    Kind::Dissolving,
    Kind::OverwrittenLanes,
    Kind::Copies,
    Kind::LongChains,
    Kind::SixtyFour,
    Kind::RegisterReuse,
    Kind::LiveOut,
    Kind::FewPlaces,
    Kind::Constants,
    Kind::Tiny,
    Kind::Limits,
    Kind::Fullest,
    Kind::Expressions,
    Kind::Gathers,
    Kind::Mixed,
];

impl Kind {
    pub fn name(self) -> &'static str {
        match self {
            Kind::Uniform => "uniform",
            Kind::Stencils => "stencils",
            Kind::Ties => "ties",
            Kind::Extension => "extension",
            Kind::Dissolving => "dissolving",
            Kind::OverwrittenLanes => "overwritten-lanes",
            Kind::Copies => "copies",
            Kind::LongChains => "long-chains",
            Kind::SixtyFour => "sixty-four",
            Kind::RegisterReuse => "register-reuse",
            Kind::LiveOut => "live-out",
            Kind::FewPlaces => "few-places",
            Kind::Constants => "constants",
            Kind::Tiny => "tiny",
            Kind::Limits => "limits",
            Kind::Fullest => "fullest",
            Kind::Expressions => "expressions",
            Kind::Gathers => "gathers",
            Kind::Mixed => "mixed",
        }
    }
}

/// The source of numbers for a block, or for what is done with it when the salt differs.
pub fn random_for(kind: Kind, number: u64, salt: u64) -> Random {
    let mut first = Random::new(number ^ salt << 48);
    Random::new(first.draw() ^ (kind as u64) << 56)
}

/// The block of this kind and number. Every block that is generated is one that can be written.
pub fn block(kind: Kind, number: u64) -> Block {
    let mut random = random_for(kind, number, 0);
    match kind {
        Kind::Uniform => uniform(&mut random),
        Kind::FewPlaces => few_places(&mut random),
        Kind::Tiny => tiny(&mut random),
        Kind::Limits => limits(&mut random),
        Kind::Fullest => fullest(&mut random),
        Kind::LongChains => long_chains(&mut random),
        _ => patterned(kind, &mut random),
    }
}

fn uniform(random: &mut Random) -> Block {
    let variables = random.between(0, 32) as u8;
    let live_out = random.between(0, usize::from(variables)) as u8;
    let most = random.pick(&[3, 16, 256]);
    let arrays = random.between(0, 8);
    let lengths: Vec<u16> = (0..arrays).map(|_| random.between(1, most) as u16).collect();
    let count = random.between(0, 64);
    let mut draft = Draft::new(random, variables, live_out, &lengths);
    if variables > 0 || arrays > 0 {
        push_any(&mut draft, count);
    }
    if draft.random.percent(50) {
        one_operation(&mut draft);
    }
    draft.block
}

/// Gives one operation to all statements but copies, or random ones would seldom have the same.
fn one_operation(draft: &mut Draft) {
    let operation = draft.operation();
    for statement in &mut draft.block.statements {
        if statement.operation != COPY {
            statement.operation = operation;
        }
    }
}

fn push_any(draft: &mut Draft, count: usize) {
    for _ in 0..count {
        let statement = draft.any_statement();
        draft.push(&[statement]);
    }
}

/// Few variables and cells, so that nearly everything depends on something.
fn few_places(random: &mut Random) -> Block {
    let variables = random.between(1, 4) as u8;
    let live_out = random.between(0, usize::from(variables)) as u8;
    let arrays = random.between(1, 2);
    let lengths: Vec<u16> = (0..arrays).map(|_| random.between(4, 6) as u16).collect();
    let count = random.between(1, 5);
    let mut draft = Draft::new(random, variables, live_out, &lengths);
    for _ in 0..count {
        let lanes = draft.random.pick(&[2, 2, 4]);
        let steps = draft.random.between(1, 3);
        let statements = draft.lockstep(lanes, steps, PLAIN);
        draft.push(&statements);
        push_any(&mut draft, 1);
    }
    draft.block
}

fn tiny(random: &mut Random) -> Block {
    let variables = random.between(1, 3) as u8;
    let live_out = random.between(0, usize::from(variables)) as u8;
    let lengths: Vec<u16> = (0..3).map(|_| random.between(2, 4) as u16).collect();
    let count = random.between(0, 3);
    let mut draft = Draft::new(random, variables, live_out, &lengths);
    if draft.random.percent(50) {
        push_any(&mut draft, count);
    } else {
        let statements = draft.stencil(2);
        draft.push(&statements[..count.min(2)]);
        if count == 3 {
            push_any(&mut draft, 1);
        }
    }
    draft.block
}

/// All limits at once, with indexes at the ends of the arrays.
fn limits(random: &mut Random) -> Block {
    let live_out = random.pick(&[0, 1, 31, 32]);
    let mut draft = Draft::new(random, 32, live_out, &[256; 8]);
    while draft.room() > 0 {
        let lanes = draft.random.pick(&[1, 2, 4, 8]);
        let mut statements = draft.stencil(lanes);
        let low = draft.random.percent(50);
        for (lane, statement) in statements.iter_mut().enumerate() {
            let index = if low { lane } else { 256 - lanes + lane } as u8;
            to_index(statement, index);
        }
        draft.push(&statements);
        if draft.random.percent(30) {
            push_any(&mut draft, 2);
        }
    }
    if draft.random.percent(30) {
        draft.shuffle();
    }
    draft.block
}

/// Pairs that take all that a pair can take: two loads, and a lane at a time for the results, so
/// that lists come to 160 instructions and 96 registers.
fn fullest(random: &mut Random) -> Block {
    let live_out = random.pick(&[0, 31, 32, 32]);
    let cells = random.pick(&[0, 50, 100]);
    let mut draft = Draft::new(random, 32, live_out, &[256; 3]);
    for pair in 0..32u8 {
        let operation = draft.operation();
        let in_cells = pair >= 16 || draft.random.percent(cells);
        for lane in 0..2 {
            let from = 3 * pair + lane;
            let destination = match in_cells {
                true => Place::Cell(2, 4 * pair + 2 * lane),
                false => Place::Variable(2 * pair + lane),
            };
            let left = Operand::Held(Place::Cell(0, from));
            let right = Operand::Held(Place::Cell(1, from));
            draft.push(&[Statement { operation, destination, left, right }]);
        }
    }
    if draft.random.percent(50) {
        draft.shuffle();
    }
    draft.block
}

/// Moves every cell of the statement to the index.
fn to_index(statement: &mut Statement, index: u8) {
    if let Place::Cell(_, at) = &mut statement.destination {
        *at = index;
    }
    for operand in [&mut statement.left, &mut statement.right] {
        if let Operand::Held(Place::Cell(_, at)) = operand {
            *at = index;
        }
    }
}

/// Rows of up to 64 neighbours, now and then broken by a dependence as in worked block 9.
fn long_chains(random: &mut Random) -> Block {
    let lanes = random.between(5, 64);
    let mut draft = Draft::new(random, 8, 4, &[64; 4]);
    let (to, from, other) = (draft.row(lanes), draft.row(lanes), draft.row(lanes));
    let operation = draft.operation();
    for lane in 0..lanes {
        let broken = lane > 0 && draft.random.percent(8);
        let left = if broken { to[draft.random.below(lane)] } else { from[lane] };
        draft.push(&[Statement {
            operation,
            destination: to[lane],
            left: Operand::Held(left),
            right: Operand::Held(other[lane]),
        }]);
    }
    let order = draft.random.below(4);
    if order == 0 {
        draft.shuffle();
    } else if order == 1 {
        let count = usize::from(draft.block.statement_count);
        draft.block.statements[..count].reverse();
    }
    draft.block
}

/// Blocks put together from patterns, with arrays long enough for any of them.
fn patterned(kind: Kind, random: &mut Random) -> Block {
    let live_out = match kind {
        Kind::LiveOut => random.between(0, 32),
        _ => random.pick(&[0, 0, 0, 1, 2, 4, 32]),
    } as u8;
    let arrays = random.between(2, 8);
    let lengths: Vec<u16> = (0..arrays).map(|_| random.between(8, 16) as u16).collect();
    let patterns = if kind == Kind::SixtyFour { 64 } else { random.between(1, 4) };
    let mut draft = Draft::new(random, 32, live_out, &lengths);
    for _ in 0..patterns {
        let statements = pattern(kind, &mut draft);
        draft.push(&statements);
        if draft.random.percent(15) {
            push_any(&mut draft, 1);
        }
    }
    let shuffled = if kind == Kind::Stencils { 60 } else { 5 };
    if draft.random.percent(shuffled) {
        draft.shuffle();
    }
    draft.block
}

fn pattern(kind: Kind, draft: &mut Draft) -> Vec<Statement> {
    let lanes = draft.random.pick(&[2, 2, 3, 4, 4, 5, 8]);
    let steps = draft.random.between(1, 5);
    match kind {
        Kind::Stencils => draft.stencil(lanes),
        Kind::Ties => draft.ties(),
        Kind::Extension if draft.random.percent(20) => draft.twins(),
        Kind::Extension => draft.extension(),
        Kind::Dissolving => {
            let lanes = draft.random.pick(&[2, 2, 4]);
            let packs = draft.random.between(2, 4);
            draft.ring(lanes, packs)
        }
        Kind::OverwrittenLanes => draft.overwritten(),
        Kind::Copies => draft.lockstep(lanes, steps, Style { copies: 80, ..PLAIN }),
        Kind::RegisterReuse => draft.reuse(),
        Kind::LiveOut => draft.lockstep(lanes, steps, Style { cells_written: 15, ..PLAIN }),
        Kind::Constants => draft.lockstep(lanes, steps, Style { constants: 55, ..PLAIN }),
        Kind::Expressions => draft.lockstep(lanes, steps, PLAIN),
        Kind::Gathers => draft.gathers(),
        _ => any_pattern(draft),
    }
}

fn any_pattern(draft: &mut Draft) -> Vec<Statement> {
    const PATTERNED: [Kind; 11] = [
        Kind::Stencils,
        Kind::Ties,
        Kind::Extension,
        Kind::Dissolving,
        Kind::OverwrittenLanes,
        Kind::Copies,
        Kind::RegisterReuse,
        Kind::LiveOut,
        Kind::Constants,
        Kind::Expressions,
        Kind::Gathers,
    ];
    let kind = draft.random.pick(&PATTERNED);
    pattern(kind, draft)
}
