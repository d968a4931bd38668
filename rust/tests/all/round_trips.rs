//! Reading and writing back, rooms of every size around the answer's, and what is kept of lent
//! memory.

use crate::help::{bytes_of, make};
use second::block::{Block, Operand, Statement};
use second::calls::{make_list, read_block, run_block, run_list, write_block, Made};
use second::damage::{damage_block, damage_list};
use second::generator::{self, random_for, Kind};

/// What lent bytes hold before a call, different at each position.
fn pattern(length: usize) -> Vec<u8> {
    (0..length).map(|i| (i * 37 + 11) as u8).collect()
}

#[test]
fn write_then_read_then_write() {
    for kind in generator::ALL {
        for number in 0..2000 {
            let block = generator::block(kind, number);
            let bytes = bytes_of(&block);
            let (status, read) = read_block(&bytes);
            assert_eq!((status, &read), (0, &block), "{} {number}", kind.name());
            assert_eq!(bytes_of(&read), bytes);
        }
    }
}

/// Damaged bytes that still read are written back as they were, so no two byte strings are one
/// block; slots past the counts are zero.
#[test]
fn read_then_write_damaged() {
    let mut read_well = 0;
    for kind in generator::ALL {
        for number in 0..2000 {
            let mut random = random_for(kind, number, 2);
            let mut bytes = bytes_of(&generator::block(kind, number));
            damage_block(&mut random, &mut bytes);
            let (status, block) = read_block(&bytes);
            if status == 0 {
                read_well += 1;
                assert_eq!(bytes_of(&block), bytes);
                check_unused(&block);
            } else {
                assert_eq!(block, Block::EMPTY);
            }
        }
    }
    assert!(read_well > 2000, "{read_well}");
}

fn check_unused(block: &Block) {
    let statements = &block.statements[usize::from(block.statement_count)..];
    assert!(statements.iter().all(|s| *s == Statement::ZERO));
    assert!(block.lengths[usize::from(block.arrays)..].iter().all(|&l| l == 0));
    for statement in block.body() {
        assert_eq!(statement.right == Operand::Nothing, statement.operation == 0);
    }
}

/// Slots past the counts are neither tested nor written, whatever they hold.
#[test]
fn unused_slots_are_ignored() {
    for number in 0..200 {
        let block = generator::block(Kind::Stencils, number);
        let mut other = block;
        for slot in &mut other.statements[usize::from(block.statement_count)..] {
            slot.operation = 200;
        }
        for length in &mut other.lengths[usize::from(block.arrays)..] {
            *length = 9999;
        }
        assert_eq!(bytes_of(&block), bytes_of(&other));
    }
}

#[test]
fn rooms_of_the_writer() {
    for kind in generator::ALL {
        for number in 0..5 {
            let block = generator::block(kind, number);
            let bytes = bytes_of(&block);
            for size in 0..=bytes.len() + 1 {
                let mut room = pattern(size);
                let (status, length) = write_block(&block, &mut room);
                assert_eq!(length, bytes.len());
                check_room(status, &room, &bytes);
            }
        }
    }
}

/// A room that is too small is refused and kept; else the answer stands in front, and the rest is
/// kept.
fn check_room(status: u8, room: &[u8], answer: &[u8]) {
    let before = pattern(room.len());
    if room.len() < answer.len() {
        assert_eq!((status, room), (7, &before[..]));
    } else {
        assert_eq!((status, &room[..answer.len()]), (0, answer));
        assert_eq!(room[answer.len()..], before[answer.len()..]);
    }
}

#[test]
fn rooms_of_the_maker() {
    for kind in generator::ALL {
        for number in 0..5 {
            let bytes = bytes_of(&generator::block(kind, number));
            let (made, list) = make(&bytes);
            for size in 0..=list.len() + 1 {
                let mut room = pattern(size);
                let again = make_list(&bytes, &mut room);
                check_room(again.status, &room, &list);
                let refused = Made { status: 7, block_price: 0, list_price: 0, ..made };
                assert_eq!(again, if size < list.len() { refused } else { made });
            }
        }
    }
}

#[test]
fn refused_making_returns_zeros_and_writes_nothing() {
    let mut refused = 0;
    for kind in generator::ALL {
        for number in 0..500 {
            let mut random = random_for(kind, number, 3);
            let mut bytes = bytes_of(&generator::block(kind, number));
            damage_block(&mut random, &mut bytes);
            let (status, _) = read_block(&bytes);
            if status != 0 {
                refused += 1;
                let mut room = pattern(1400);
                let zeros = Made { status, length: 0, block_price: 0, list_price: 0 };
                assert_eq!(make_list(&bytes, &mut room), zeros);
                assert_eq!(room, pattern(1400));
            }
        }
    }
    assert!(refused > 3000, "{refused}");
}

/// Damaged lists, and variables or cells that are one too many or too few: if the running is
/// refused, price 0 and everything as lent.
#[test]
fn refused_running_keeps_what_is_lent() {
    const MORE: [usize; 8] = [0, 1, 1, 1, 1, 1, 1, 2];
    let mut seen = [0; 10];
    for kind in generator::ALL {
        for number in 0..1000 {
            let mut random = random_for(kind, number, 4);
            let block = generator::block(kind, number);
            let bytes = bytes_of(&block);
            let (_, mut list) = make(&bytes);
            damage_list(&mut random, &mut list);
            let declared = (usize::from(block.variables), block.cell_count());
            let variables = (declared.0 + random.pick(&MORE)).saturating_sub(1);
            let cells = (declared.1 + random.pick(&MORE)).saturating_sub(1);
            let lent = (random.contents(variables), random.contents(cells));
            let status = kept(&lent, |variables, cells| run_list(&bytes, &list, variables, cells));
            seen[usize::from(status)] += 1;
            let status = kept(&lent, |variables, cells| run_block(&bytes, variables, cells));
            assert_eq!(status, if (variables, cells) == declared { 0 } else { 6 });
        }
    }
    assert!(seen[0] > 500 && seen[6] > 500 && seen[8] > 500 && seen[9] > 500, "{seen:?}");
}

/// Runs on a copy of what is lent and returns the status; a refusal must have changed nothing.
fn kept(lent: &(Vec<u32>, Vec<u32>), run: impl Fn(&mut [u32], &mut [u32]) -> (u8, u32)) -> u8 {
    let (mut variables, mut cells) = lent.clone();
    let (status, price) = run(&mut variables, &mut cells);
    if status != 0 {
        assert_eq!((price, &variables, &cells), (0, &lent.0, &lent.1));
    }
    status
}
