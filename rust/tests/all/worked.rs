//! Worked blocks 1 to 11 of document 01, built from statements, and the corners of arithmetic.

use crate::help::{block, bytes_of, c, cell, copy, make, number, statement, v, variable};
use second::block::{Block, Statement, ADD, MULTIPLY, SHIFT_RIGHT, SUBTRACT};
use second::calls::{make_list, run_block, run_list};
use second::dependence::{definitions, rows};
use second::estimate::View;
use second::list::{self, Instruction};
use second::seeding::seed;
use second::text;

/// c[i] = a[i] + b[i], with arrays of four.
fn sums(count: u8) -> Vec<Statement> {
    (0..count).map(|i| statement(cell(2, i), c(0, i), ADD, c(1, i))).collect()
}

/// The prices, and the letters of the list that is made.
fn answer(block: &Block) -> (u32, u32, String) {
    let (made, bytes) = make(&bytes_of(block));
    assert_eq!(made.status, 0);
    let list = list::read(&bytes).expect("the list reads");
    (made.block_price, made.list_price, list.iter().map(letter).collect())
}

fn letter(instruction: &Instruction) -> char {
    match instruction {
        Instruction::Single { .. } => 'S',
        Instruction::Load { .. } => 'L',
        Instruction::Constants { .. } => 'C',
        Instruction::Gather { .. } => 'G',
        Instruction::Operate { .. } => 'O',
        Instruction::Store { .. } => 'W',
        Instruction::StoreLane { .. } => 'D',
        Instruction::Extract { .. } => 'X',
    }
}

fn expect(block: &Block, block_price: u32, list_price: u32, letters: &str) {
    assert_eq!(answer(block), (block_price, list_price, letters.to_string()));
}

#[test]
fn block_1_nothing() {
    let (made, list) = make(&bytes_of(&block(0, 0, &[], &[])));
    assert_eq!((made.status, made.length, made.block_price, made.list_price), (0, 4, 0, 0));
    assert_eq!(list, [1, 0, 4, 0]);
}

#[test]
fn block_2_four_sums() {
    let bytes = bytes_of(&block(0, 0, &[4, 4, 4], &sums(4)));
    assert_eq!(text::hex(&bytes[..13]), "01003900000304000400040004");
    assert_eq!(text::hex(&bytes[13..24]), "0a01020200020000020100");
    assert_eq!(bytes.len(), 0x39);
    let lines = "0 29 16 4\n01001d0405010004000005010104010006040201040001050502040200\n";
    assert_eq!(text::list_lines(&bytes), lines);
}

/// The list program refuses what is too long by its length alone, and prints one line for it.
#[test]
fn list_program_refuses() {
    let mut long = vec![1; 4097];
    assert_eq!(text::list_lines(&long), "2 0 0 0\n");
    long[0] = 9;
    assert_eq!(text::list_lines(&long), "2 0 0 0\n");
    long.pop();
    assert_eq!(text::list_lines(&long), "1 0 0 0\n");
    assert_eq!(text::list_lines(&[]), "2 0 0 0\n");
    assert_eq!(text::list_lines(&[1, 0, 7, 33, 0, 0, 0]), "3 0 0 0\n");
}

#[test]
fn block_3_three_and_one() {
    expect(&block(0, 0, &[4, 4, 4], &sums(3)), 12, 8, "LLOWS");
    expect(&block(0, 0, &[4, 4, 4], &sums(1)), 4, 4, "S");
}

#[test]
fn block_4_dependent() {
    let body = [
        statement(cell(0, 1), c(0, 0), ADD, number(1)),
        statement(cell(0, 2), c(0, 1), ADD, number(1)),
    ];
    expect(&block(0, 0, &[3], &body), 6, 6, "SS");
}

#[test]
fn block_5_extension_and_live_out() {
    let body = [
        statement(variable(0), c(0, 0), ADD, c(1, 0)),
        statement(variable(1), c(0, 1), ADD, c(1, 1)),
        statement(cell(2, 0), v(0), SHIFT_RIGHT, number(1)),
        statement(cell(2, 1), v(1), SHIFT_RIGHT, number(1)),
    ];
    expect(&block(2, 0, &[2, 2, 2], &body), 10, 6, "LLOCOW");
    expect(&block(2, 1, &[2, 2, 2], &body), 10, 7, "LLOCOWX");
    expect(&block(2, 2, &[2, 2, 2], &body), 10, 8, "LLOCOWXX");
}

#[test]
fn block_6_not_below() {
    let body =
        [statement(variable(0), c(0, 0), ADD, v(2)), statement(variable(1), c(0, 1), ADD, v(3))];
    let block = block(4, 4, &[2], &body);
    assert_eq!(list::price(&block, &second::choice::packed_list(&block)), 6);
    expect(&block, 4, 4, "SS");
}

#[test]
fn block_7_middle_pair() {
    let body = [
        copy(variable(0), c(0, 0)),
        copy(variable(1), c(0, 1)),
        statement(variable(2), v(0), MULTIPLY, v(0)),
        statement(variable(3), v(1), MULTIPLY, v(1)),
        copy(cell(1, 0), v(2)),
        copy(cell(1, 1), v(3)),
    ];
    let block = block(4, 0, &[2, 2], &body);
    expect(&block, 10, 5, "LOOOW");
    assert_eq!(estimate_after_seeding(&block, 2, 3), 1);
}

fn estimate_after_seeding(block: &Block, one: usize, other: usize) -> i32 {
    let (pairs, definitions) = (seed(block, &rows(block)), definitions(block));
    View { block, definitions: &definitions, pairs: &pairs }.estimate(one, other)
}

#[test]
fn block_8_second_pair() {
    let body = [
        statement(variable(0), c(0, 0), ADD, number(1)),
        statement(variable(1), c(0, 1), ADD, number(1)),
        statement(variable(2), v(0), MULTIPLY, number(3)),
        statement(variable(3), v(1), MULTIPLY, number(3)),
    ];
    let block = block(4, 4, &[2], &body);
    expect(&block, 6, 6, "SSSS");
    assert_eq!(estimate_after_seeding(&block, 2, 3), -2);
}

#[test]
fn block_9_chain_that_is_not_independent() {
    let mut body = sums(3);
    body.push(statement(cell(2, 3), c(2, 0), ADD, c(1, 3)));
    expect(&block(0, 0, &[4, 4, 4], &body), 16, 11, "LLOWGLOW");
}

#[test]
fn block_10_dissolves() {
    let body = [
        statement(cell(2, 0), c(0, 0), ADD, c(1, 0)),
        statement(cell(3, 0), c(2, 0), MULTIPLY, c(4, 0)),
        statement(cell(3, 1), c(5, 1), MULTIPLY, c(4, 1)),
        statement(cell(2, 1), c(0, 1), ADD, c(3, 1)),
    ];
    expect(&block(0, 0, &[2; 6], &body), 16, 15, "SGLOWS");
}

#[test]
fn block_11_writes_what_was_read() {
    let body = [
        statement(cell(0, 0), c(0, 1), ADD, number(1)),
        statement(cell(0, 1), c(0, 2), ADD, number(1)),
    ];
    expect(&block(0, 0, &[3], &body), 6, 6, "SS");
}

/// The ring of the easy errors: the two may be paired one way round only.
#[test]
fn ring_is_not_closed() {
    let body = [
        statement(variable(0), c(0, 0), ADD, c(1, 1)),
        statement(variable(1), c(0, 1), ADD, c(1, 0)),
    ];
    let block = block(2, 2, &[2, 2], &body);
    assert_eq!(seed(&block, &rows(&block)).order, [(0, 1)]);
}

/// A loaded register is not used again after one of its cells was stored to.
#[test]
fn stored_cell_is_loaded_again() {
    let mut body = sums(2);
    body.push(copy(cell(0, 1), number(7)));
    body.extend((0..2).map(|i| statement(cell(3, i), c(0, i), ADD, c(1, i))));
    expect(&block(0, 0, &[4; 4], &body), 18, 9, "LLOWSLOW");
}

fn corner(operation: u8, left: u32, right: u32) -> [u32; 3] {
    let one = block(1, 1, &[], &[statement(variable(0), number(left), operation, number(right))]);
    let mut single = [9];
    assert_eq!(run_block(&bytes_of(&one), &mut single, &mut []), (0, 1));
    // The same from cells, one by one and lane by lane.
    let body: Vec<Statement> =
        (0..2).map(|i| statement(cell(2, i), c(0, i), operation, c(1, i))).collect();
    let bytes = bytes_of(&block(0, 0, &[2, 2, 2], &body));
    let mut by_block = [left, left, right, right, 9, 9];
    let mut by_list = by_block;
    assert_eq!(run_block(&bytes, &mut [], &mut by_block), (0, 8));
    let (_, list) = make(&bytes);
    assert_eq!(run_list(&bytes, &list, &mut [], &mut by_list), (0, 4));
    assert_eq!((by_block[4], by_list[5]), (by_block[5], by_list[4]));
    [single[0], by_block[4], by_list[4]]
}

#[test]
fn corners_of_arithmetic() {
    assert_eq!(corner(ADD, 4_294_967_295, 1), [0; 3]);
    assert_eq!(corner(SUBTRACT, 0, 1), [4_294_967_295; 3]);
    assert_eq!(corner(MULTIPLY, 65_536, 65_536), [0; 3]);
    assert_eq!(corner(MULTIPLY, 4_294_967_295, 4_294_967_295), [1; 3]);
    assert_eq!(corner(SHIFT_RIGHT, 6, 33), [3; 3]);
    assert_eq!(corner(SHIFT_RIGHT, 0x8000_0000, 31), [1; 3]);
    assert_eq!(corner(SHIFT_RIGHT, 6, 32), [6; 3]);
    assert_eq!(corner(SHIFT_RIGHT, 6, 0xFFFF_FFFF), [0; 3]);
    assert_eq!(corner(4, 0b1100, 0b1010), [0b1000; 3]);
    assert_eq!(corner(5, 0b1100, 0b1010), [0b1110; 3]);
    assert_eq!(corner(6, 0b1100, 0b1010), [0b0110; 3]);
}

/// The room need not be larger than the answer.
#[test]
fn room_just_fits() {
    let bytes = bytes_of(&block(0, 0, &[4, 4, 4], &sums(4)));
    let mut room = [0; 29];
    assert_eq!(make_list(&bytes, &mut room).status, 0);
    assert_eq!(text::hex(&room[..4]), "01001d04");
}
