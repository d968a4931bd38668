//! Every line of the shared vectors of running a block and running a list, by the proved library.

use compare::library::{self, Answer};
use compare::{Lent, Manner};
use second::text;

/// The lines of a file of vectors, of which there are so many.
pub fn lines(name: &str, count: usize) -> Vec<String> {
    let path = format!("{}/../vectors/{name}", env!("CARGO_MANIFEST_DIR"));
    let text = std::fs::read_to_string(path).expect("the vectors are part of the repository");
    let lines: Vec<String> = text.lines().map(str::to_string).collect();
    assert_eq!(lines.len(), count);
    lines
}

/// Compares each line of a file: so many fields of bytes, variables and cells before, then the answer
/// and variables and cells after.
fn compare_lines(
    name: &str,
    count: usize,
    fields_of_bytes: usize,
    run: impl Fn(&[Box<[u8]>], &mut [u32], &mut [u32]) -> Answer,
) {
    for (number, line) in lines(name, count).iter().enumerate() {
        let fields: Vec<&str> = line.split(' ').collect();
        let (bytes, rest) = fields.split_at(fields_of_bytes);
        let bytes: Vec<Box<[u8]>> = bytes
            .iter()
            .map(|field| text::parse_hex(field).expect("hexadecimal").into_boxed_slice())
            .collect();
        let values = |field: &str| text::parse_numbers(field).expect("numbers");
        let mut variables = Lent::new(Manner::Bordered, &values(rest[0]), 0xABCD_0123);
        let mut cells = Lent::new(Manner::Bordered, &values(rest[1]), 0x0123_ABCD);
        let answer = run(&bytes, variables.part(), cells.part());
        assert_eq!((answer.size, answer.list_price), (0, 0));
        assert!(variables.kept_borders() && cells.kept_borders());
        let said = format!(
            "{} {} {} {}",
            answer.status,
            answer.price,
            text::numbers(variables.contents()),
            text::numbers(cells.contents())
        );
        assert_eq!(said, rest[2..].join(" "), "{name}, line {}", number + 1);
    }
}

#[test]
fn run_block() {
    compare_lines("run-block.txt", 172, 1, |bytes, variables, cells| {
        library::run_block(&bytes[0], variables, cells)
    });
}

#[test]
fn run_list() {
    compare_lines("run-list.txt", 854, 2, |bytes, variables, cells| {
        library::run_list(&bytes[0], &bytes[1], variables, cells)
    });
}
