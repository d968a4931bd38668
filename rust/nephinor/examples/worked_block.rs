//! Worked block 2, `c[i] = a[i] + b[i]` for i from 0 to 3: written, made into a list, and both run on
//! the same cells. It prints what `examples/c/worked_block.c` prints.
//!
//!     cargo run --example worked_block

use nephinor::{Block, Operand, Operation, Place, Refusal, Statement};

/// Array a, array b, and array c, which both runs fill. The last sum is above 2^32.
const START: [u32; 12] = [1, 2, 3, 4_294_967_295, 10, 20, 30, 2, 0, 0, 0, 0];

fn main() -> Result<(), Refusal> {
    let mut room = [0; nephinor::MOST_BLOCK_BYTES];
    let length = nephinor::write_block(&worked_block(), &mut room)?;
    let block = &room[..length];

    let mut room = [0; nephinor::LIST_ROOM];
    let made = nephinor::make_list(block, &mut room)?;
    let list = &room[..made.length];
    println!("the block has {} bytes and costs {}", block.len(), made.block_price);
    println!("its list has {} bytes and costs {}:", list.len(), made.list_price);
    print_list(list);

    let (mut by_block, mut by_list) = (START, START);
    let ran = nephinor::run_block(block, &mut [], &mut by_block)?;
    print_run("the block", ran.price, &by_block);
    let ran = nephinor::run_list(block, list, &mut [], &mut by_list)?;
    print_run("the list ", ran.price, &by_list);
    println!("every cell {}", if by_block == by_list { "is the same" } else { "IS NOT THE SAME" });
    Ok(())
}

fn worked_block() -> Block {
    let cell = |array, index| Place::Cell { array, index };
    let sum = |index| Statement {
        operation: Operation::Add,
        destination: cell(2, index),
        left: Operand::Held(cell(0, index)),
        right: Some(Operand::Held(cell(1, index))),
    };
    Block { variables: 0, live_out: 0, lengths: vec![4; 3], statements: (0..4).map(sum).collect() }
}

/// One instruction a line: the letter of its code, then its fields. A record begins with the number
/// of bytes behind that one.
fn print_list(list: &[u8]) {
    let mut rest = &list[4..];
    while let [count, record @ ..] = rest {
        let (record, behind) = record.split_at(usize::from(*count));
        print!("    {}", ["S", "L", "C", "G", "O", "W", "D", "X"][usize::from(record[0])]);
        record[1..].iter().for_each(|field| print!(" {field}"));
        println!();
        rest = behind;
    }
}

fn print_run(what: &str, price: u16, cells: &[u32]) {
    let sums: Vec<String> = cells[8..].iter().map(u32::to_string).collect();
    println!("{what} paid {price:2} and left c = {}", sums.join(" "));
}
