//! The driver itself: it ends when its input does, and with a message at a request that is none and at
//! a library that writes where it may not.

use compare::driven::{DRIVER_PROGRAM, FAULTY_PROGRAM};
use compare::programs;

/// The header of a request, with no contents.
fn header(numbers: [u32; 5]) -> Vec<u8> {
    numbers.into_iter().flat_map(u32::to_le_bytes).collect()
}

/// Runs a driver on a request, which it must refuse with this message and no answer.
fn refused(program: &str, request: &[u8], message: &str) {
    let output = programs::run(program.as_ref(), request);
    assert_eq!(String::from_utf8_lossy(&output.stderr), format!("driver: {message}\n"));
    assert_eq!((output.status.code(), output.stdout.len()), (Some(1), 0));
}

#[test]
fn ends_with_its_input() {
    let output = programs::run(DRIVER_PROGRAM.as_ref(), &[]);
    assert_eq!((output.status.code(), output.stdout.len()), (Some(0), 0));
    assert_eq!(output.stderr, []);
}

#[test]
fn requests_that_are_none() {
    refused(DRIVER_PROGRAM, &header([5, 0, 0, 0, 0]), "a request names no call");
    refused(DRIVER_PROGRAM, &header([0, 1 << 31, 0, 0, 0]), "a request lends too much");
    refused(DRIVER_PROGRAM, &header([0, 1, 0, 0, 0]), "a request ends early");
    refused(DRIVER_PROGRAM, &[0; 19], "a request ends early");
}

/// Each call of the faulty library on slices of one element.
#[test]
fn writes_that_are_not_allowed() {
    for (call, size) in [(0, 5), (1, 5), (3, 10), (4, 2)] {
        let request = [header([call, 1, 1, 1, 1]), vec![0; size]].concat();
        refused(FAULTY_PROGRAM, &request, "the library wrote beside what it was lent");
    }
    let request = [header([2, 1, 1, 1, 0]), vec![0; 9]].concat();
    refused(FAULTY_PROGRAM, &request, "the library wrote what it was lent for reading alone");
}
