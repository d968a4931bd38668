//! A block and its list side by side, as text: what the program `compare` prints where it is not
//! refused.

use crate::block::Block;
use crate::calls::{make_list, read_block, run_block, run_list};
use crate::refusal::DONE;
use std::fmt::Write;

/// The most bytes that a block has with its variables and cells.
const MOST_INPUT: usize = 9303;

/// Bytes, four to a number, the highest first.
fn numbers(bytes: &[u8]) -> Vec<u32> {
    bytes.chunks(4).map(|four| u32::from_be_bytes(four.try_into().expect("four"))).collect()
}

/// The text for a block's bytes with the contents behind them, or the number that refuses them.
pub fn comparison(input: &[u8]) -> Result<String, u8> {
    if input.len() > MOST_INPUT {
        return Err(6);
    }
    let stated = match input {
        [_, high, low, ..] => usize::from(u16::from_be_bytes([*high, *low])),
        _ => 0,
    };
    let (bytes, contents) = input.split_at(stated.min(input.len()));
    let (status, block) = read_block(bytes);
    if status != DONE {
        return Err(status);
    }
    let middle = 4 * usize::from(block.variables);
    if contents.len() != middle + 4 * block.cell_count() {
        return Err(6);
    }
    Ok(text(bytes, &block, &numbers(&contents[..middle]), &numbers(&contents[middle..])))
}

fn text(bytes: &[u8], block: &Block, variables: &[u32], cells: &[u32]) -> String {
    let mut room = [0; 4096];
    let made = make_list(bytes, &mut room);
    let (mut block_variables, mut block_cells) = (variables.to_vec(), cells.to_vec());
    let (mut list_variables, mut list_cells) = (variables.to_vec(), cells.to_vec());
    let ran = run_block(bytes, &mut block_variables, &mut block_cells);
    let list = &room[..made.length];
    let listed = run_list(bytes, list, &mut list_variables, &mut list_cells);
    let mut lines = Lines { text: String::new(), differ: false };
    for (name, (status, price)) in [("block", ran), ("list", listed)] {
        writeln!(lines.text, "{name}: status {status}, price {price}").expect("a text");
    }
    writeln!(lines.text, "{:7}{:>12}{:>12}{:>12}", "", "start", "block", "list").expect("a text");
    let mut at = 0;
    for (array, &length) in block.array_lengths().iter().enumerate() {
        for index in 0..length {
            lines.put(format!("A{array}[{index}]"), cells[at], block_cells[at], list_cells[at]);
            at += 1;
        }
    }
    for v in 0..usize::from(block.live_out) {
        lines.put(format!("V{v}"), variables[v], block_variables[v], list_variables[v]);
    }
    lines.text.push_str(match lines.differ {
        false => "Every cell and every live-out variable ends alike.\n",
        true => "They differ where a line is marked.\n",
    });
    lines.text
}

struct Lines {
    text: String,
    differ: bool,
}

impl Lines {
    fn put(&mut self, name: String, start: u32, block: u32, list: u32) {
        let mark = if block == list { "" } else { "  *" };
        self.differ |= block != list;
        writeln!(self.text, "{name:7}{start:12}{block:12}{list:12}{mark}").expect("a text");
    }
}
