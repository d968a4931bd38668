//! Dependence rows, definitions and pairs against naive computations.

use crate::help::{block, c, cell, number, statement, v, variable};
use crate::naive::{self, Reading};
use second::block::{Block, ADD};
use second::choice::all_pairs;
use second::dependence::{independent, rows};
use second::generator::{self, Kind};

fn check_rows(block: &Block, leads: impl Fn(usize, usize) -> bool) {
    let rows = rows(block);
    let count = block.body().len();
    for (from, row) in rows.into_iter().enumerate() {
        for to in 0..64 {
            let set = row >> to & 1 == 1;
            assert_eq!(set, from < count && to < count && leads(from, to), "{from} {to}");
        }
    }
}

/// Every path of small blocks is tried out, step by step.
#[test]
fn rows_are_all_paths_of_small_blocks() {
    let mut joined = 0;
    for kind in [Kind::FewPlaces, Kind::Tiny, Kind::Uniform, Kind::Dissolving, Kind::Mixed] {
        for seed in 0..1000 {
            let mut block = generator::block(kind, seed);
            block.statement_count = block.statement_count.min(12);
            check_rows(&block, |from, to| naive::path(&block, from, to));
            joined += rows(&block).iter().filter(|&&row| row != 0).count();
        }
    }
    assert!(joined > 5000, "{joined}");
}

/// Large blocks have too many paths, so that a walk marks what it reaches.
#[test]
fn rows_are_what_a_walk_reaches() {
    for kind in generator::ALL {
        for seed in 0..300 {
            let block = generator::block(kind, seed);
            let reached: Vec<Vec<bool>> =
                (0..block.body().len()).map(|from| naive::reached(&block, from)).collect();
            check_rows(&block, |from, to| reached[from][to]);
        }
    }
}

/// The three kinds of dependence, the path through a third statement, and two statements that only
/// have a third one in common.
#[test]
fn rows_by_hand() {
    let body = [
        statement(variable(0), c(0, 0), ADD, number(1)),
        statement(variable(1), v(0), ADD, number(1)),
        statement(variable(2), v(1), ADD, number(1)),
        statement(variable(3), v(0), ADD, number(1)),
        statement(cell(0, 0), number(1), ADD, number(1)),
        statement(variable(3), c(0, 1), ADD, number(1)),
    ];
    let rows = rows(&block(4, 0, &[2], &body));
    assert_eq!(rows[..6], [0, 0b1, 0b11, 0b1, 0b1, 0b1001]);
    assert!(!independent(&rows, 0, 2) && !independent(&rows, 2, 0));
    assert!(independent(&rows, 1, 3) && independent(&rows, 3, 1));
}

/// Seeding and extension against the naive ones, order of admission included.
#[test]
fn pairs_are_the_naive_ones() {
    let mut admitted = 0;
    for kind in generator::ALL {
        for seed in 1000..1300 {
            let block = generator::block(kind, seed);
            let pairs = all_pairs(&block, &rows(&block)).order;
            assert_eq!(pairs, naive::pairs(&block, Reading::Right), "{} {seed}", kind.name());
            admitted += pairs.len();
        }
    }
    assert!(admitted > 30_000, "{admitted}");
}

/// That the comparison above can tell: each wrong reading of extension gives other pairs in some of
/// the blocks that are made for it.
#[test]
fn wrong_readings_give_other_pairs() {
    let mut differing = [0; naive::WRONG.len()];
    for kind in [Kind::Ties, Kind::Extension] {
        for seed in 0..500 {
            let block = generator::block(kind, seed);
            let pairs = all_pairs(&block, &rows(&block)).order;
            for (count, reading) in differing.iter_mut().zip(naive::WRONG) {
                *count += usize::from(pairs != naive::pairs(&block, reading));
            }
        }
    }
    for (count, reading) in differing.into_iter().zip(naive::WRONG) {
        // Pairs that only a visit of an added pair finds are seldom.
        let least = if reading == Reading::SeedsOnly { 1 } else { 10 };
        assert!(count >= least, "{reading:?} {count}");
    }
}
