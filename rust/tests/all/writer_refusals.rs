//! The order in which the writer refuses: 3, 4, 5, 7, each over the whole block.

use crate::help::{block, bytes_of, c, cell, copy, statement, v, variable};
use second::block::{Block, Operand, ADD};
use second::calls::write_block;

fn sound() -> Block {
    let body = [
        statement(variable(0), c(0, 0), ADD, v(1)),
        copy(cell(1, 1), v(1)),
        statement(variable(1), c(0, 1), ADD, c(1, 2)),
    ];
    block(2, 1, &[2, 3], &body)
}

type Fault = (u8, fn(&mut Block));

const FAULTS: [Fault; 25] = [
    (3, |b| b.variables = 33),
    (3, |b| b.live_out = 3),
    (3, |b| b.arrays = 9),
    (3, |b| b.arrays = 255),
    (3, |b| b.arrays = 3),
    (3, |b| b.statement_count = 65),
    (3, |b| b.statement_count = 255),
    (3, |b| b.lengths[0] = 0),
    (3, |b| b.lengths[1] = 257),
    (3, |b| b.lengths[1] = 65_535),
    (4, |b| b.statements[0].operation = 8),
    (4, |b| b.statements[2].operation = 255),
    (4, |b| b.statements[0].operation = 0),
    (4, |b| b.statements[1].right = v(0)),
    (4, |b| b.statements[1].operation = 7),
    (4, |b| b.statements[2].left = Operand::Nothing),
    (4, |b| b.statements[2].right = Operand::Nothing),
    (5, |b| b.statements[0].destination = variable(2)),
    (5, |b| b.statements[2].destination = cell(2, 0)),
    (5, |b| b.statements[1].destination = cell(0, 2)),
    (5, |b| b.statements[0].left = c(0, 2)),
    (5, |b| b.statements[0].right = v(255)),
    (5, |b| b.statements[1].left = c(255, 255)),
    (5, |b| b.statements[2].left = v(2)),
    (5, |b| b.statements[2].right = c(1, 3)),
];

fn check(block: &Block, number: u8, room: usize) {
    let mut lent = vec![0xAB; room];
    assert_eq!(write_block(block, &mut lent), (number, 0));
    assert!(lent.iter().all(|&byte| byte == 0xAB));
}

#[test]
fn sound_block_is_written() {
    assert_eq!(bytes_of(&sound()).len(), 7 + 4 + 9 + 7 + 10);
}

/// Each fault alone, also where the room is too small, since 7 comes last.
#[test]
fn every_fault_alone() {
    for (number, fault) in FAULTS {
        let mut block = sound();
        fault(&mut block);
        check(&block, number, 100);
        check(&block, number, 0);
    }
}

/// Of two faults the lower number, wherever in the block they are. A fault may undo another one of
/// its own number, and 4 may be undone by the other of one statement; neither is compared.
#[test]
fn every_two_faults() {
    for (number, fault) in FAULTS {
        for (other_number, other) in FAULTS {
            if number < other_number {
                let mut block = sound();
                other(&mut block);
                fault(&mut block);
                check(&block, number, 100);
            }
        }
    }
}

/// Unlike the reader, the writer finds a 4 in statement 1 before a 5 in statement 0.
#[test]
fn form_of_a_later_statement_comes_first() {
    let mut block = sound();
    block.statements[0].destination = variable(9);
    check(&block, 5, 100);
    block.statements[1].operation = 9;
    check(&block, 4, 100);
    block.lengths[1] = 0;
    check(&block, 3, 100);
}

#[test]
fn room_comes_last() {
    let mut lent = [0xAB; 36];
    assert_eq!(write_block(&sound(), &mut lent), (7, 37));
    assert_eq!(lent, [0xAB; 36]);
}
