//! The program itself: its subcommands, its usage and its exit codes.

use std::io::Write;
use std::process::{Command, Output, Stdio};

const FOUR_SUMS: &str = "010039000003040004000400040a010202000200000201000a01020201020001020101\
                         0a010202020200020201020a01020203020003020103";
const LIST: &str = "01001d0405010004000005010104010006040201040001050502040200";

fn program(arguments: &[&str], input: &[u8]) -> Output {
    let mut child = Command::new(env!("CARGO_BIN_EXE_second"))
        .args(arguments)
        .stdin(Stdio::piped())
        .stdout(Stdio::piped())
        .stderr(Stdio::piped())
        .spawn()
        .expect("the program starts");
    // The program may stop reading early, and then this write is refused, which is no fault.
    let _ = child.stdin.take().expect("piped").write_all(input);
    child.wait_with_output().expect("the program ends")
}

fn printed(arguments: &[&str], input: &[u8]) -> String {
    let output = program(arguments, input);
    assert_eq!((output.status.code(), output.stderr.len()), (Some(0), 0));
    String::from_utf8(output.stdout).expect("text")
}

#[test]
fn list() {
    let block = second::text::parse_hex(FOUR_SUMS).expect("hexadecimal");
    assert_eq!(printed(&["list"], &block), format!("0 29 16 4\n{LIST}\n"));
    assert_eq!(printed(&["list"], &[]), "2 0 0 0\n");
    assert_eq!(printed(&["list"], &[9; 4096]), "1 0 0 0\n");
    assert_eq!(printed(&["list"], &[9; 4097]), "2 0 0 0\n");
    assert_eq!(printed(&["list"], &[9; 1_000_000]), "2 0 0 0\n");
}

#[test]
fn single_calls() {
    let cells = "1,2,3,4,4294967295,6,7,8,0,0,0,0";
    let after = "1,2,3,4,4294967295,6,7,8,0,8,10,12";
    assert_eq!(printed(&["make", FOUR_SUMS], &[]), format!("0 29 16 4 {LIST}\n"));
    assert_eq!(printed(&["make", "-"], &[]), "2 0 0 0 -\n");
    let run = printed(&["run-block", FOUR_SUMS, "-", cells], &[]);
    assert_eq!(run, format!("0 16 - {after}\n"));
    let run = printed(&["run-list", FOUR_SUMS, LIST, "-", cells], &[]);
    assert_eq!(run, format!("0 4 - {after}\n"));
    let run = printed(&["run-list", FOUR_SUMS, "-", "-", cells], &[]);
    assert_eq!(run, format!("8 0 - {cells}\n"));
    assert_eq!(printed(&["run-block", FOUR_SUMS, "5", "-"], &[]), "6 0 5 -\n");
}

#[test]
fn bad_use() {
    let bad: [&[&str]; 9] = [
        &[],
        &["lists"],
        &["list", "more"],
        &["make"],
        &["make", "0"],
        &["make", "0g"],
        &["run-block", "-", "-"],
        &["run-block", "-", "1,,2", "-"],
        &["run-list", "-", "-", "4294967296", "-"],
    ];
    for arguments in bad {
        let output = program(arguments, &[]);
        assert_eq!((output.status.code(), output.stdout.len()), (Some(2), 0), "{arguments:?}");
        assert!(output.stderr.starts_with(b"usage:"));
    }
}
