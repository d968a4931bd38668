//! The proved programs. The list program beside the second program: the sample blocks, input that is
//! empty, and input around 4,096 bytes; what is refused also has its sentence on standard error. And
//! `compare`: the samples with their stored text, input around the most bytes, and generated blocks with
//! contents, some of both damaged, beside the second program.

use compare::programs;
use second::calls::write_block;
use second::damage::damage_block;
use second::generator::{self, random_for};
use second::{side_by_side, text};
use std::path::{Path, PathBuf};

fn root() -> PathBuf {
    Path::new(env!("CARGO_MANIFEST_DIR")).join("../..")
}

/// Standard output is the second program's; standard error is what is expected.
fn expect(input: &[u8], sentence: &str) {
    let output = programs::run(&programs::built("list"), input);
    assert_eq!(String::from_utf8_lossy(&output.stdout), text::list_lines(input));
    assert_eq!(String::from_utf8_lossy(&output.stderr), sentence);
    assert_eq!(output.status.code(), Some(0));
}

const OTHER_VERSION: &str = "The first byte of the block, its version, is not 1.\n";
const OTHER_LENGTH: &str =
    "The block has under 7 bytes, or states a length that is not the number \
     of bytes given.\n";
const OVER_LIMIT: &str =
    "A count or an array's length is over its limit, an array has no cells, or \
     more variables are live out than there are.\n";
const BROKEN_RECORD: &str =
    "The bytes end early or some are left over, or in a record the length, \
     the operation, a kind or the number of operands is wrong, or the \
     destination is a constant.\n";
const NOT_DECLARED: &str =
    "A statement names a variable, an array or an index that the block does \
     not declare.\n";
const TOO_MANY_BYTES: &str = "The input has over 4096 bytes, which no block has.\n";
const USAGE: &str =
    "usage: list < BLOCK\nBLOCK is a file with the bytes of one block; the list that \
     is made for it is printed in hexadecimal.\n";

#[test]
fn samples() {
    let mut count = 0;
    for entry in std::fs::read_dir(root().join("samples")).expect("the folder") {
        let path = entry.expect("an entry").path();
        if path.extension().is_some_and(|extension| extension == "bin") {
            expect(&std::fs::read(&path).expect("a file"), "");
            count += 1;
        }
    }
    assert_eq!(count, 14);
}

#[test]
fn nothing_given() {
    expect(&[], &format!("{OTHER_LENGTH}{USAGE}"));
}

#[test]
fn around_the_most_bytes() {
    expect(&[9; 4096], OTHER_VERSION);
    expect(&[1; 4096], OTHER_LENGTH);
    expect(&[9; 4097], TOO_MANY_BYTES);
    expect(&[1; 4097], TOO_MANY_BYTES);
    expect(&[1; 1_000_000], TOO_MANY_BYTES);
}

#[test]
fn refused() {
    expect(&[1, 0, 7, 33, 0, 0, 0], OVER_LIMIT);
    expect(&[1, 0, 8, 0, 0, 0, 0, 0], BROKEN_RECORD);
    expect(&[1, 0, 13, 1, 1, 0, 1, 5, 0, 1, 0, 1, 1], NOT_DECLARED);
}

/// What `compare` prints; it has nothing to say on standard error.
fn compared(input: &[u8]) -> String {
    let output = programs::run(&programs::built("compare"), input);
    assert_eq!(String::from_utf8_lossy(&output.stderr), "");
    assert_eq!(output.status.code(), Some(0));
    String::from_utf8(output.stdout).expect("plain text")
}

#[test]
fn samples_side_by_side() {
    let mut count = 0;
    for entry in std::fs::read_dir(root().join("samples/compare")).expect("the folder") {
        let path = entry.expect("an entry").path();
        if path.extension().is_some_and(|extension| extension == "bin") {
            let text = std::fs::read_to_string(path.with_extension("txt")).expect("its text");
            assert_eq!(compared(&std::fs::read(&path).expect("a file")), text, "{path:?}");
            count += 1;
        }
    }
    assert_eq!(count, 13);
}

/// 32 live-out variables and 8 arrays of 256 cells, each as large as a number can be: the longest lines.
#[test]
fn most_lines_side_by_side() {
    let mut input = vec![1, 0, 23, 32, 32, 8, 0];
    input.extend([1, 0].repeat(8));
    input.extend([255; 4 * (32 + 2048)]);
    let text = compared(&input);
    let lines: Vec<&str> = text.lines().collect();
    assert_eq!(lines.len(), 2 + 1 + 2048 + 32 + 1);
    assert_eq!(lines[3], "A0[0]    4294967295  4294967295  4294967295");
    assert_eq!(lines[2050], "A7[255]  4294967295  4294967295  4294967295");
    assert_eq!(lines[2082], "V31      4294967295  4294967295  4294967295");
    assert_eq!(lines[2083], "Every cell and every live-out variable ends alike.");
    assert!(!text.contains('*'));
}

#[test]
fn around_the_most_bytes_side_by_side() {
    let listed = "The numbers are listed in docs/PROMISES.md under \"Numbers returned\".\n";
    let too_long =
        "refused with 6: The input has over 9303 bytes, which no block has with its variables and cells.\n";
    assert_eq!(compared(&[9; 9303]), format!("refused with 1: {OTHER_VERSION}{listed}"));
    assert_eq!(compared(&[9; 9304]), format!("{too_long}{listed}"));
    assert_eq!(compared(&[1; 1_000_000]), format!("{too_long}{listed}"));
}

#[test]
fn generated_side_by_side() {
    let mut refused = [0; 7];
    for number in 0..16 {
        for kind in generator::ALL {
            let mut random = random_for(kind, number, 13);
            let block = generator::block(kind, number);
            let mut input = vec![0; 983];
            let (_, length) = write_block(&block, &mut input);
            input.truncate(length);
            if number % 4 == 1 {
                damage_block(&mut random, &mut input);
            }
            let count = usize::from(block.variables) + block.cell_count();
            input.extend(random.contents(count).iter().flat_map(|value| value.to_be_bytes()));
            match number % 8 {
                2 => input.truncate(input.len().saturating_sub(random.between(1, 3))),
                3 => input.truncate(random.below(length)),
                _ => {}
            }
            let text = compared(&input);
            match side_by_side::comparison(&input) {
                Ok(expected) => assert_eq!(text, expected, "{} {number}", kind.name()),
                Err(status) => {
                    refused[usize::from(status)] += 1;
                    assert!(text.starts_with(&format!("refused with {status}: ")), "{text}");
                }
            }
        }
    }
    assert!(refused[1..].iter().all(|&times| times > 0), "{refused:?}");
}
