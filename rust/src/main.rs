//! The command line of the second program: the list program of worked block 2, and single calls in
//! the text of the vectors.

use second::text;
use std::io::{Read, Write};
use std::process::ExitCode;

const USAGE: &str = "usage:
  second list                              reads a block on standard input and prints status,
                                           list length, block price, list price, then the list
  second make BLOCK                        prints status, list length, both prices, list
  second run-block BLOCK VARIABLES CELLS   prints status, price, variables, cells afterwards
  second run-list BLOCK LIST VARIABLES CELLS
                                           prints status, price, variables, cells afterwards
BLOCK and LIST are hexadecimal, VARIABLES and CELLS numbers separated by commas; - is empty.
";

fn main() -> ExitCode {
    let arguments: Vec<String> =
        std::env::args_os().skip(1).map(|a| a.to_string_lossy().into_owned()).collect();
    let words: Vec<&str> = arguments.iter().map(String::as_str).collect();
    match answer(&words) {
        Some(text) => match std::io::stdout().write_all(text.as_bytes()) {
            Ok(()) => ExitCode::SUCCESS,
            Err(_) => ExitCode::FAILURE,
        },
        None => {
            // Nothing is left to do if the usage cannot be written either.
            let _ = std::io::stderr().write_all(USAGE.as_bytes());
            ExitCode::from(2)
        }
    }
}

/// What is printed for the arguments; none if they are not as the usage says.
fn answer(words: &[&str]) -> Option<String> {
    match *words {
        ["list"] => Some(text::list_lines(&input())),
        ["make", block] => Some(text::make_answer(&text::parse_hex(block)?) + "\n"),
        ["run-block", block, variables, cells] => {
            let block = text::parse_hex(block)?;
            let variables = text::parse_numbers(variables)?;
            let cells = text::parse_numbers(cells)?;
            Some(text::run_block_answer(&block, variables, cells) + "\n")
        }
        ["run-list", block, list, variables, cells] => {
            let block = text::parse_hex(block)?;
            let list = text::parse_hex(list)?;
            let variables = text::parse_numbers(variables)?;
            let cells = text::parse_numbers(cells)?;
            Some(text::run_list_answer(&block, &list, variables, cells) + "\n")
        }
        _ => None,
    }
}

/// Standard input as far as one byte past what is taken: that byte is enough to refuse it. Input
/// that cannot be read counts as ended there.
fn input() -> Vec<u8> {
    let mut bytes = Vec::new();
    let _ = std::io::stdin().lock().take(text::MOST_INPUT as u64 + 1).read_to_end(&mut bytes);
    bytes
}
