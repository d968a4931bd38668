//! Programs that the kit links: they are run as `rt run` runs them, by themselves, under the machine's
//! own loader and C library.

use std::io::{ErrorKind, Write};
use std::path::{Path, PathBuf};
use std::process::{Command, Output, Stdio};

/// The command that runs a program, in an empty environment.
pub(crate) fn command(program: &Path) -> Command {
    let mut command = Command::new(program);
    command.env_clear();
    command
}

/// Where `bash build` puts a program of this repository.
pub fn built(name: &str) -> PathBuf {
    let program = Path::new(env!("CARGO_MANIFEST_DIR")).join("../../target/bin").join(name);
    assert!(program.is_file(), "target/bin/{name} is missing: run `bash build {name}` first");
    program
}

/// Runs a program on this standard input: how it ended, and all that it wrote.
pub fn run(program: &Path, input: &[u8]) -> Output {
    let mut child = command(program)
        .stdin(Stdio::piped())
        .stdout(Stdio::piped())
        .stderr(Stdio::piped())
        .spawn()
        .expect("the program starts");
    let mut standard_input = child.stdin.take().expect("its input is a pipe");
    std::thread::scope(|scope| {
        // Beside the reading of what it writes, so that neither waits for the other. A program may end
        // before it has read all.
        scope.spawn(move || match standard_input.write_all(input) {
            Err(error) if error.kind() != ErrorKind::BrokenPipe => panic!("{error}"),
            _ => {}
        });
        child.wait_with_output().expect("the program ends")
    })
}
