//! Generated and damaged blocks through each call, by both.

use compare::{Manner, KINDS};
use std::sync::atomic::AtomicU64;

/// With 19 kinds, each as generated and damaged, 228,000 cases.
const CASES: u64 = 6000 * 2 * KINDS;

/// Compares one call on all cases; each of the statuses must have come back, and no other. It returns
/// how often each did.
pub fn compare_call(name: &str, statuses: &[usize]) -> [u64; 10] {
    let (_, check) = compare::calls(&[name]).expect("a call of this name")[0];
    let done = AtomicU64::new(0);
    match compare::compare(&[check], Manner::Bordered, 0..CASES, 2, &done) {
        Ok(seen) => {
            for (status, &count) in seen[0].iter().enumerate() {
                let expected = statuses.contains(&status);
                assert!(if expected { count > 500 } else { count == 0 }, "{seen:?}");
            }
            seen[0]
        }
        Err(found) => panic!("case {}: {}", found.0, found.1),
    }
}

#[test]
fn readings_agree() {
    compare_call("read_block", &[0, 1, 2, 3, 4, 5, 7]);
}

#[test]
fn writings_agree() {
    compare_call("write_block", &[0, 2, 3, 4, 5, 7]);
}

#[test]
fn runs_agree() {
    compare_call("run_block", &[0, 1, 2, 3, 4, 5, 6]);
}

#[test]
fn runs_of_lists_agree() {
    let seen = compare_call("run_list", &[0, 1, 2, 3, 4, 5, 6, 8, 9]);
    assert!(seen[0] + seen[8] + seen[9] > 100_000, "most lists reach the card: {seen:?}");
}
