//! The two ways to the library, linked and through the driver, on every line of the vectors: what one
//! returns and leaves, so does the other.

use compare::driven;
use compare::library::{self, Answer, TABLE};
use second::calls::read_block;
use second::random::Random;
use second::text;
use std::fmt::Debug;

/// Makes a call both ways on copies of the same contents; returns these as the calls left them.
fn both_ways<Contents: Clone + PartialEq + Debug>(
    lent: &Contents,
    first: impl Fn(&mut Contents) -> Answer,
    second: impl Fn(&mut Contents) -> Answer,
) -> Contents {
    let (mut one, mut other) = (lent.clone(), lent.clone());
    assert_eq!(first(&mut one), second(&mut other));
    assert_eq!(one, other);
    one
}

#[test]
fn ways_agree() {
    let mut random = Random::new(23);
    for name in ["make.txt", "make-more.txt", "run-block.txt", "run-list.txt"] {
        let path = format!("{}/../vectors/{name}", env!("CARGO_MANIFEST_DIR"));
        let lines = std::fs::read_to_string(path).expect("the vectors are part of the repository");
        for line in lines.lines() {
            let mut fields = line.split(' ').map(text::parse_hex);
            let bytes = fields.next().expect("a line has a block").expect("hexadecimal");
            let numbers = both_ways(
                &random.contents(TABLE),
                |numbers| library::read_block(&bytes, numbers),
                |numbers| driven::read_block(&bytes, numbers),
            );
            both_ways(
                &vec![0xA5; bytes.len()],
                |room| library::write_block(&numbers, room),
                |room| driven::write_block(&numbers, room),
            );
            let (_, block) = read_block(&bytes);
            let variables = random.contents(block.variables.into());
            let lent = (variables, random.contents(block.cell_count()));
            both_ways(
                &lent,
                |(variables, cells)| library::run_block(&bytes, variables, cells),
                |(variables, cells)| driven::run_block(&bytes, variables, cells),
            );
            if name == "run-list.txt" {
                let list = fields.next().expect("and a list").expect("hexadecimal");
                both_ways(
                    &lent,
                    |(variables, cells)| library::run_list(&bytes, &list, variables, cells),
                    |(variables, cells)| driven::run_list(&bytes, &list, variables, cells),
                );
            }
        }
    }
}
