//! The proved explain program. On two sample blocks it prints the text that stands beside them; on each
//! sample its sums are those of the second program's list; and what is refused is said in words.

use compare::programs;
use second::text;
use std::path::{Path, PathBuf};

fn samples() -> PathBuf {
    Path::new(env!("CARGO_MANIFEST_DIR")).join("../../samples")
}

/// What the program prints; it prints nothing on standard error.
fn explained(input: &[u8]) -> String {
    let output = programs::run(&programs::built("explain"), input);
    assert_eq!(String::from_utf8_lossy(&output.stderr), "");
    assert_eq!(output.status.code(), Some(0));
    String::from_utf8(output.stdout).expect("text")
}

const LISTED: &str = "The numbers are listed in docs/PROMISES.md under \"Numbers returned\".\n";
const OTHER_LENGTH: &str =
    "refused with 2: The block has under 7 bytes, or states a length that is not the number \
     of bytes given.\n";
const NOT_DECLARED: &str =
    "refused with 5: A statement names a variable, an array or an index that the block does \
     not declare.\n";
const TOO_MANY_BYTES: &str = "refused with 2: The input has over 4096 bytes, which no block has.\n";
const USAGE: &str =
    "usage: explain < BLOCK\nBLOCK is a file with the bytes of one block; how its list comes \
     about is printed.\n";

#[test]
fn texts_beside_the_samples() {
    for name in ["block-02-four-sums", "block-05-one-live-out"] {
        let block = std::fs::read(samples().join(name).with_extension("bin")).expect("a block");
        let beside = samples().join(name).with_extension("txt");
        assert_eq!(explained(&block), std::fs::read_to_string(beside).expect("a text"));
    }
}

#[test]
fn sums_of_every_sample() {
    let mut count = 0;
    for entry in std::fs::read_dir(samples()).expect("the folder") {
        let path = entry.expect("an entry").path();
        if path.extension().is_none_or(|extension| extension != "bin") {
            continue;
        }
        let block = std::fs::read(&path).expect("a block");
        let lines = text::list_lines(&block);
        let numbers: Vec<&str> = lines.split_whitespace().collect();
        let sums = format!("Sums: the block costs {}, the list {}.\n", numbers[2], numbers[3]);
        let printed = explained(&block);
        assert!(printed.ends_with(&sums), "{}: {printed}", path.display());
        // The count of the list's instructions is its fourth byte.
        let instructions = printed.split("Instructions of the answer").nth(1).expect("the section");
        let priced = instructions.matches("(price ").count();
        assert_eq!(format!("{priced:02x}"), numbers[4][6..8], "{}", path.display());
        count += 1;
    }
    assert_eq!(count, 14);
}

#[test]
fn refused() {
    assert_eq!(explained(&[]), format!("{OTHER_LENGTH}{LISTED}{USAGE}"));
    assert_eq!(explained(&[1; 4096]), format!("{OTHER_LENGTH}{LISTED}"));
    assert_eq!(explained(&[1; 4097]), format!("{TOO_MANY_BYTES}{LISTED}"));
    let not_declared = [1, 0, 13, 1, 1, 0, 1, 5, 0, 1, 0, 1, 1];
    assert_eq!(explained(&not_declared), format!("{NOT_DECLARED}{LISTED}"));
}
