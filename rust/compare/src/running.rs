//! Running a block, and running a list beside it: status, price, and every variable and cell, by both.

use crate::difference::{Bytes, Comparing, Difference};
use crate::lent::{Lent, Manner};
use crate::library::{self, Answer};
use second::block::Block;
use second::calls as second_calls;
use second::damage::{damage_list, random_list};
use second::random::Random;
use second::text;

/// Runs the block on contents that mostly have its sizes.
pub fn check_block(manner: Manner, random: &mut Random, bytes: &[u8]) -> Result<u8, Difference> {
    let (variables, cells) = contents(random, &second_calls::read_block(bytes).1);
    run_block(manner, bytes, &variables, &cells)
}

/// Runs a list beside the block: the one made for it or one drawn at random, as it is or damaged.
pub fn check_list(manner: Manner, random: &mut Random, bytes: &[u8]) -> Result<u8, Difference> {
    let (_, block) = second_calls::read_block(bytes);
    let list = some_list(random, &block, bytes);
    let (variables, cells) = contents(random, &block);
    run_list(manner, bytes, &list, &variables, &cells)
}

fn contents(random: &mut Random, block: &Block) -> (Vec<u32>, Vec<u32>) {
    let variables = one_off(random, usize::from(block.variables));
    let cells = one_off(random, block.cell_count());
    (random.contents(variables), random.contents(cells))
}

/// Mostly exactly what the block declares; else one variable or cell more or less.
fn one_off(random: &mut Random, declared: usize) -> usize {
    match random.below(20) {
        0 => declared.saturating_sub(1),
        1 => declared + 1,
        _ => declared,
    }
}

fn some_list(random: &mut Random, block: &Block, bytes: &[u8]) -> Vec<u8> {
    let mut list = if random.percent(50) {
        let mut room = vec![0; nephinor::LIST_ROOM];
        let made = second_calls::make_list(bytes, &mut room);
        room.truncate(made.length);
        room
    } else {
        random_list(random, block)
    };
    if random.percent(40) {
        damage_list(random, &mut list);
    }
    list
}

/// Runs a block by both on these contents.
pub fn run_block(
    manner: Manner,
    bytes: &[u8],
    variables: &[u32],
    cells: &[u32],
) -> Result<u8, Difference> {
    let (mut other_variables, mut other_cells) = (variables.to_vec(), cells.to_vec());
    let second = second_calls::run_block(bytes, &mut other_variables, &mut other_cells);
    let given = Lent::new(manner, bytes, 0xA5);
    let mut lent = Contents::new(manner, variables, cells);
    let answer = library::run_block(given.contents(), lent.variables.part(), lent.cells.part());
    let to = Comparing {
        given: &|| {
            let (variables, cells) = (text::numbers(variables), text::numbers(cells));
            format!("run-block {} {variables} {cells}", text::hex(bytes))
        },
    };
    read_only(&to, bytes, &given)?;
    lent.same(&to, (second, answer), &other_variables, &other_cells)?;
    as_lent_if_refused(&to, second.0, (variables, cells), (&other_variables, &other_cells))
}

/// Runs a list beside its block by both on these contents.
pub fn run_list(
    manner: Manner,
    bytes: &[u8],
    list: &[u8],
    variables: &[u32],
    cells: &[u32],
) -> Result<u8, Difference> {
    let (mut other_variables, mut other_cells) = (variables.to_vec(), cells.to_vec());
    let second = second_calls::run_list(bytes, list, &mut other_variables, &mut other_cells);
    let given = [Lent::new(manner, bytes, 0xA5), Lent::new(manner, list, 0xA5)];
    let mut lent = Contents::new(manner, variables, cells);
    let answer = library::run_list(
        given[0].contents(),
        given[1].contents(),
        lent.variables.part(),
        lent.cells.part(),
    );
    let to = Comparing {
        given: &|| {
            let (variables, cells) = (text::numbers(variables), text::numbers(cells));
            format!("run-list {} {} {variables} {cells}", text::hex(bytes), text::hex(list))
        },
    };
    read_only(&to, bytes, &given[0])?;
    read_only(&to, list, &given[1])?;
    lent.same(&to, (second, answer), &other_variables, &other_cells)?;
    as_lent_if_refused(&to, second.0, (variables, cells), (&other_variables, &other_cells))
}

/// Bytes that a run reads are as they were.
fn read_only(to: &Comparing, before: &[u8], after: &Lent<u8>) -> Result<(), Difference> {
    to.same("what was read", Bytes(before), Bytes(after.contents()))?;
    to.same("the borders kept", true, after.kept_borders())
}

/// What a run is lent.
struct Contents {
    variables: Lent<u32>,
    cells: Lent<u32>,
}

impl Contents {
    fn new(manner: Manner, variables: &[u32], cells: &[u32]) -> Contents {
        Contents {
            variables: Lent::new(manner, variables, 0xABCD_0123),
            cells: Lent::new(manner, cells, 0x0123_ABCD),
        }
    }

    fn same(
        &self,
        to: &Comparing,
        (second, answer): ((u8, u32), Answer),
        variables: &[u32],
        cells: &[u32],
    ) -> Result<(), Difference> {
        let (status, price) = second;
        let expected = Answer { status, size: 0, price: price as u16, list_price: 0 };
        to.same("the numbers returned", expected, answer)?;
        to.same("the variables", variables, self.variables.contents())?;
        to.same("the cells", cells, self.cells.contents())?;
        let kept = (self.variables.kept_borders(), self.cells.kept_borders());
        to.same("the borders kept", (true, true), kept)
    }
}

/// The status, where a refusal left all as it was. By now the two agree, so this is about both.
fn as_lent_if_refused(
    to: &Comparing,
    status: u8,
    before: (&[u32], &[u32]),
    after: (&[u32], &[u32]),
) -> Result<u8, Difference> {
    if status != 0 {
        to.same("what a refusal leaves", before, after)?;
    }
    Ok(status)
}
