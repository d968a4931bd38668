//! Hexadecimal digits, lists of numbers, and the lines that the program prints: those of worked
//! block 2 and those of the vectors.

use crate::calls::{make_list, run_block, run_list};

/// The most bytes that the list program takes.
pub const MOST_INPUT: usize = 4096;

/// Room for any answer, since a stated length has two bytes.
const ROOM: usize = 65_535;

/// What the list program prints for the block on its standard input.
pub fn list_lines(input: &[u8]) -> String {
    if input.len() > MOST_INPUT {
        return "2 0 0 0\n".to_string();
    }
    let mut room = vec![0; ROOM];
    let made = make_list(input, &mut room);
    let first =
        format!("{} {} {} {}\n", made.status, made.length, made.block_price, made.list_price);
    match made.status {
        0 => format!("{}{}\n", first, hex(&room[..made.length])),
        _ => first,
    }
}

/// What follows the block in a line of make.txt.
pub fn make_answer(block: &[u8]) -> String {
    let mut room = vec![0; ROOM];
    let made = make_list(block, &mut room);
    let list = field(hex(&room[..made.length]));
    format!("{} {} {} {} {}", made.status, made.length, made.block_price, made.list_price, list)
}

/// What follows the contents in a line of run-block.txt.
pub fn run_block_answer(block: &[u8], mut variables: Vec<u32>, mut cells: Vec<u32>) -> String {
    let (status, price) = run_block(block, &mut variables, &mut cells);
    format!("{} {} {} {}", status, price, numbers(&variables), numbers(&cells))
}

/// What follows the contents in a line of run-list.txt.
pub fn run_list_answer(
    block: &[u8],
    list: &[u8],
    mut variables: Vec<u32>,
    mut cells: Vec<u32>,
) -> String {
    let (status, price) = run_list(block, list, &mut variables, &mut cells);
    format!("{} {} {} {}", status, price, numbers(&variables), numbers(&cells))
}

/// Lower-case hexadecimal, two digits a byte.
pub fn hex(bytes: &[u8]) -> String {
    bytes.iter().map(|byte| format!("{byte:02x}")).collect()
}

/// Numbers separated by commas, as a field.
pub fn numbers(values: &[u32]) -> String {
    let texts: Vec<String> = values.iter().map(u32::to_string).collect();
    field(texts.join(","))
}

fn field(text: String) -> String {
    if text.is_empty() {
        "-".to_string()
    } else {
        text
    }
}

/// Bytes from hexadecimal; none if the text is not of that form.
pub fn parse_hex(text: &str) -> Option<Vec<u8>> {
    if text == "-" {
        return Some(Vec::new());
    }
    let digits: Option<Vec<u8>> =
        text.chars().map(|c| c.to_digit(16).map(|digit| digit as u8)).collect();
    let digits = digits?;
    (digits.len() % 2 == 0).then(|| digits.chunks(2).map(|two| two[0] * 16 + two[1]).collect())
}

/// Numbers from a field; none if one is no unsigned 32-bit number.
pub fn parse_numbers(text: &str) -> Option<Vec<u32>> {
    if text == "-" {
        return Some(Vec::new());
    }
    text.split(',').map(|number| number.parse().ok()).collect()
}
