//! Seeding and extension once more, slowly and straight from the text, to compare the pairs. Wrong
//! readings of the text are a parameter here, to see whether blocks tell them from the right one.

use second::block::{Block, Operand, Place, Statement};

/// The right reading of extension, and wrong ones that are easily made.
#[derive(Clone, Copy, Debug, PartialEq, Eq)]
pub enum Reading {
    Right,
    /// Of equal estimates the last pair of readers is taken.
    LastOfEquals,
    /// The right reader is the outer loop.
    LoopsExchanged,
    /// The first pair of readers with an estimate of 0 or more is taken, not the greatest.
    FirstNotNegative,
    /// Definition to use comes before use to definition.
    UsesFirst,
    /// The right position comes before the left one.
    RightFirst,
    /// Results count as read by a pair also where its two statements read at differing positions.
    AnyPosition,
    /// A tuple that is both left and right is charged once.
    SameTupleOnce,
    /// Only pairs from seeding are visited.
    SeedsOnly,
}

pub const WRONG: [Reading; 8] = [
    Reading::LastOfEquals,
    Reading::LoopsExchanged,
    Reading::FirstNotNegative,
    Reading::UsesFirst,
    Reading::RightFirst,
    Reading::AnyPosition,
    Reading::SameTupleOnce,
    Reading::SeedsOnly,
];

type Pair = (usize, usize);

/// Whether a path of dependences leads from one statement to the other, by trying every step.
pub fn path(block: &Block, from: usize, to: usize) -> bool {
    let body = block.body();
    (0..from).any(|next| direct(&body[from], &body[next]) && (next == to || path(block, next, to)))
}

/// The places that a statement reads.
fn read(statement: &Statement) -> Vec<Place> {
    let held = |operand: &Operand| match *operand {
        Operand::Held(place) => Some(place),
        _ => None,
    };
    [statement.left, statement.right].iter().filter_map(held).collect()
}

pub fn direct(later: &Statement, earlier: &Statement) -> bool {
    read(later).contains(&earlier.destination)
        || read(earlier).contains(&later.destination)
        || later.destination == earlier.destination
}

/// The same by a walk that marks what it has seen, for blocks with too many paths to try.
pub fn reached(block: &Block, from: usize) -> Vec<bool> {
    let body = block.body();
    let mut seen = vec![false; body.len()];
    let mut open = vec![from];
    while let Some(at) = open.pop() {
        for next in 0..at {
            if !seen[next] && direct(&body[at], &body[next]) {
                seen[next] = true;
                open.push(next);
            }
        }
    }
    seen
}

pub struct Naive<'a> {
    block: &'a Block,
    reached: Vec<Vec<bool>>,
    reading: Reading,
    pairs: Vec<Pair>,
}

/// All pairs in order of admission.
pub fn pairs(block: &Block, reading: Reading) -> Vec<Pair> {
    let count = block.body().len();
    let reached = (0..count).map(|s| reached(block, s)).collect();
    let mut naive = Naive { block, reached, reading, pairs: Vec::new() };
    for s in 0..count {
        for t in 0..count {
            if naive.adjacent(s, t) && naive.may(s, t) {
                naive.pairs.push((s, t));
            }
        }
    }
    let seeds = naive.pairs.len();
    let mut visit = 0;
    while visit < naive.pairs.len() && (visit < seeds || reading != Reading::SeedsOnly) {
        naive.visit(naive.pairs[visit]);
        visit += 1;
    }
    naive.pairs
}

/// Destination, left and right of a statement, as operands.
fn positions(statement: &Statement) -> [Operand; 3] {
    [Operand::Held(statement.destination), statement.left, statement.right]
}

fn in_a_row(one: Operand, other: Operand) -> bool {
    match (one, other) {
        (Operand::Held(Place::Cell(a, i)), Operand::Held(Place::Cell(b, j))) => {
            a == b && usize::from(i) + 1 == usize::from(j)
        }
        _ => false,
    }
}

fn cells(operand: Operand) -> i32 {
    match operand {
        Operand::Held(Place::Cell(_, _)) => 1,
        _ => 0,
    }
}

impl Naive<'_> {
    fn at(&self, s: usize) -> &Statement {
        &self.block.statements[s]
    }

    fn adjacent(&self, s: usize, t: usize) -> bool {
        let (one, other) = (positions(self.at(s)), positions(self.at(t)));
        (0..3).any(|p| in_a_row(one[p], other[p]))
    }

    fn may(&self, s: usize, t: usize) -> bool {
        let kind = |s: usize| cells(Operand::Held(self.at(s).destination));
        s != t
            && self.at(s).operation == self.at(t).operation
            && kind(s) == kind(t)
            && !self.reached[s][t]
            && !self.reached[t][s]
            && self.pairs.iter().all(|&(left, right)| left != s && right != t)
            && !self.chained(t, s)
    }

    fn chained(&self, from: usize, to: usize) -> bool {
        self.pairs
            .iter()
            .any(|&(left, right)| left == from && (right == to || self.chained(right, to)))
    }

    fn definition(&self, reader: usize, position: usize) -> Option<usize> {
        let operand = positions(self.at(reader))[position];
        match operand {
            Operand::Held(Place::Variable(_)) => {
                (0..reader).rev().find(|&d| Operand::Held(self.at(d).destination) == operand)
            }
            _ => None,
        }
    }

    fn price(&self, s: usize) -> i32 {
        let [to, left, right] = positions(self.at(s));
        1 + cells(to) + cells(left) + cells(right)
    }

    fn estimate(&self, t: usize, u: usize) -> i32 {
        let mut saved = self.price(t) + self.price(u) - 1;
        let (one, other) = (positions(self.at(t)), positions(self.at(u)));
        let last = if self.at(t).operation == 0 { 1 } else { 2 };
        for p in 1..=last {
            let same = one[1] == one[2] && other[1] == other[2];
            if p == 2 && same && self.reading == Reading::SameTupleOnce {
                continue;
            }
            let defined = (self.definition(t, p), self.definition(u, p));
            saved -= match (one[p], other[p], defined) {
                (Operand::Constant(_), Operand::Constant(_), _) => 1,
                (a, b, _) if in_a_row(a, b) => 1,
                (_, _, (Some(d), Some(e))) if self.pairs.contains(&(d, e)) => 0,
                (a, b, _) => 2 + cells(a) + cells(b),
            };
        }
        saved
            - match (one[0], other[0]) {
                (a, b) if in_a_row(a, b) => 1,
                (a, _) if cells(a) == 1 => 4,
                _ if self.wanted(t, u) => 0,
                _ => 2,
            }
    }

    /// Whether an admitted pair reads both results, in this order, at one position.
    fn wanted(&self, t: usize, u: usize) -> bool {
        let reads = |r: usize, d: usize, p: usize| self.definition(r, p) == Some(d);
        self.pairs.iter().any(|&(a, b)| {
            (1..3).any(|p| reads(a, t, p) && reads(b, u, p))
                || self.reading == Reading::AnyPosition && self.reads(a, t) && self.reads(b, u)
        })
    }

    /// Whether a statement reads the result of another one, at some position.
    fn reads(&self, reader: usize, defined: usize) -> bool {
        (1..3).any(|p| self.definition(reader, p) == Some(defined))
    }

    fn visit(&mut self, pair: Pair) {
        if self.reading == Reading::UsesFirst {
            self.extend_to_use(pair);
        }
        let positions = if self.reading == Reading::RightFirst { [2, 1] } else { [1, 2] };
        for p in positions {
            if let (Some(d), Some(e)) = (self.definition(pair.0, p), self.definition(pair.1, p)) {
                if self.may(d, e) && self.estimate(d, e) >= 0 {
                    self.pairs.push((d, e));
                }
            }
        }
        if self.reading != Reading::UsesFirst {
            self.extend_to_use(pair);
        }
    }

    fn extend_to_use(&mut self, (s, t): Pair) {
        let count = self.block.body().len();
        let mut candidates: Vec<Pair> = (0..count)
            .filter(|&r| self.reads(r, s))
            .flat_map(|r| (0..count).map(move |q| (r, q)))
            .filter(|&(r, q)| self.reads(q, t) && self.may(r, q))
            .collect();
        match self.reading {
            Reading::LastOfEquals => candidates.reverse(),
            Reading::LoopsExchanged => candidates.sort_by_key(|&(r, q)| (q, r)),
            _ => {}
        }
        let estimates = || candidates.iter().map(|&(r, q)| self.estimate(r, q));
        let wanted = match self.reading {
            Reading::FirstNotNegative => estimates().find(|&estimate| estimate >= 0),
            _ => estimates().max(),
        };
        let found = candidates.iter().find(|&&(r, q)| Some(self.estimate(r, q)) == wanted);
        if let (Some(&pair), Some(0..)) = (found, wanted) {
            self.pairs.push(pair);
        }
    }
}
