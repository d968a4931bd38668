//! Demand 3 over generated blocks: the list that is made does what its block does, touches nothing
//! else, and costs what is said.

use crate::help::{bytes_of, make};
use second::block::{Block, Operand, Place, Statement};
use second::calls::{run_block, run_list};
use second::choice::packed_list;
use second::generator::{self, random_for, Kind};
use second::list::{self, Instruction};

const BLOCKS_OF_A_KIND: u64 = 20_000;

/// The cells that are read and those that are written, one flag for each cell there could be.
struct Touched {
    read: Vec<bool>,
    written: Vec<bool>,
}

impl Touched {
    fn nothing() -> Touched {
        Touched { read: vec![false; 8 * 256], written: vec![false; 8 * 256] }
    }

    fn reads(&mut self, operand: Operand) {
        if let Operand::Held(Place::Cell(array, index)) = operand {
            self.read[usize::from(array) * 256 + usize::from(index)] = true;
        }
    }

    fn writes(&mut self, place: Place) {
        if let Place::Cell(array, index) = place {
            self.written[usize::from(array) * 256 + usize::from(index)] = true;
        }
    }

    fn statement(&mut self, statement: &Statement) {
        self.reads(statement.left);
        self.reads(statement.right);
        self.writes(statement.destination);
    }

    fn instruction(&mut self, block: &Block, instruction: &Instruction) {
        match *instruction {
            Instruction::Single { statement } => {
                self.statement(&block.body()[usize::from(statement)]);
            }
            Instruction::Load { lanes, array, index, .. } => {
                for lane in 0..lanes {
                    self.reads(Operand::Held(Place::Cell(array, index + lane)));
                }
            }
            Instruction::Gather { operands, .. } => {
                operands.into_iter().for_each(|operand| self.reads(operand));
            }
            Instruction::Store { lanes, array, index, .. } => {
                for lane in 0..lanes {
                    self.writes(Place::Cell(array, index + lane));
                }
            }
            Instruction::StoreLane { array, index, .. } => self.writes(Place::Cell(array, index)),
            _ => {}
        }
    }
}

/// What is touched by the list is touched in the same way by the block, and no write is left out.
fn check_touched(block: &Block, list: &[Instruction]) {
    let mut by_block = Touched::nothing();
    block.body().iter().for_each(|statement| by_block.statement(statement));
    let mut by_list = Touched::nothing();
    list.iter().for_each(|instruction| by_list.instruction(block, instruction));
    assert_eq!(by_block.written, by_list.written);
    assert!(by_list.read.iter().zip(&by_block.read).all(|(list, block)| *block || !list));
}

/// Runs block and list on the same contents; cells and live-out variables must come out alike.
/// Returns the price that the list paid.
fn check_run(block: &Block, block_bytes: &[u8], list: &[u8], kind: Kind, number: u64) -> u32 {
    let mut random = random_for(kind, number, 1);
    let mut variables = random.contents(usize::from(block.variables));
    let mut cells = random.contents(block.cell_count());
    let (mut other_variables, mut other_cells) = (variables.clone(), cells.clone());
    let (status, price) = run_block(block_bytes, &mut variables, &mut cells);
    assert_eq!((status, price), (0, block.price()));
    let (status, paid) = run_list(block_bytes, list, &mut other_variables, &mut other_cells);
    assert_eq!(status, 0, "{} {number}", kind.name());
    let live_out = usize::from(block.live_out);
    assert_eq!(cells, other_cells, "{} {number}", kind.name());
    assert_eq!(variables[..live_out], other_variables[..live_out], "{} {number}", kind.name());
    paid
}

fn check_limits(list: &[Instruction]) {
    assert!(list.len() <= 160);
    assert!(list.iter().filter(|i| i.written().is_some()).count() <= 96);
}

fn check_block(kind: Kind, number: u64) {
    let block = generator::block(kind, number);
    let bytes = bytes_of(&block);
    let (made, list_bytes) = make(&bytes);
    assert_eq!((made.status, made.block_price), (0, block.price()));
    let list = list::read(&list_bytes).expect("the list reads");
    assert_eq!(list::write(&list), list_bytes);
    check_limits(&list);
    check_touched(&block, &list);
    let paid = check_run(&block, &bytes, &list_bytes, kind, number);
    assert_eq!(paid, made.list_price, "{} {number}", kind.name());
    assert!(made.list_price <= made.block_price);
    let vector = list.iter().any(Instruction::is_vector);
    assert_eq!(vector, made.list_price < made.block_price, "{} {number}", kind.name());
    if !vector {
        // The choice hid a packed list, which must be as right as one that wins.
        let packed = packed_list(&block);
        check_limits(&packed);
        check_touched(&block, &packed);
        let paid = check_run(&block, &bytes, &list::write(&packed), kind, number);
        assert!(paid >= block.price());
    }
}

/// All kinds, spread over two threads so that the time stays small.
#[test]
fn lists_do_what_their_blocks_do() {
    std::thread::scope(|scope| {
        for half in 0..2 {
            scope.spawn(move || {
                for kind in generator::ALL.into_iter().skip(half).step_by(2) {
                    (0..BLOCKS_OF_A_KIND).for_each(|number| check_block(kind, number));
                }
            });
        }
    });
}
