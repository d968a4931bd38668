//! The cases on which the two are compared: generated blocks of every kind, and the same ones damaged. A
//! number always gives the same case.

use crate::difference::Difference;
use crate::Check;
use second::block::Block;
use second::calls::write_block;
use second::damage::damage_block;
use second::generator::{self, random_for};
use second::random::Random;
use std::ops::Range;
use std::sync::atomic::{AtomicBool, AtomicU64, Ordering};

/// How many kinds of blocks there are.
pub const KINDS: u64 = generator::ALL.len() as u64;

/// A block's bytes, and the source of all else that is drawn for them.
pub struct Case {
    pub bytes: Box<[u8]>,
    pub random: Random,
}

/// The case of a number: the kinds in turn, each block as it is and then damaged.
pub fn case(number: u64) -> Case {
    let kind = generator::ALL[(number % KINDS) as usize];
    let (block, damaged) = (number / KINDS / 2, number / KINDS % 2 == 1);
    let mut random = random_for(kind, block, 11 + u64::from(damaged));
    let mut bytes = bytes_of(&generator::block(kind, block));
    if damaged {
        damage_block(&mut random, &mut bytes);
    }
    Case { bytes: bytes.into_boxed_slice(), random }
}

fn bytes_of(block: &Block) -> Vec<u8> {
    let mut room = vec![0; nephinor::MOST_BLOCK_BYTES];
    let (status, length) = write_block(block, &mut room);
    assert_eq!(status, 0, "every generated block can be written");
    room.truncate(length);
    room
}

/// How often each status came back, for each call.
pub type Seen = Vec<[u64; 10]>;

/// Puts every case of a range through every check, on so many threads, as far as the first
/// difference. `done` counts the cases on the way.
pub fn compare(
    checks: &[Check],
    lend: crate::Manner,
    range: Range<u64>,
    threads: usize,
    done: &AtomicU64,
) -> Result<Seen, Box<(u64, Difference)>> {
    let stop = AtomicBool::new(false);
    let part = |first: usize| {
        let mut seen: Seen = vec![[0; 10]; checks.len()];
        for number in range.clone().skip(first).step_by(threads) {
            if stop.load(Ordering::Relaxed) {
                break;
            }
            let mut case = case(number);
            for (check, seen) in checks.iter().zip(&mut seen) {
                match check(lend, &mut case.random, &case.bytes) {
                    Ok(status) => seen[usize::from(status)] += 1,
                    Err(difference) => {
                        stop.store(true, Ordering::Relaxed);
                        return Err(Box::new((number, difference)));
                    }
                }
            }
            done.fetch_add(1, Ordering::Relaxed);
        }
        Ok(seen)
    };
    std::thread::scope(|scope| {
        let part = &part;
        let others: Vec<_> = (1..threads).map(|first| scope.spawn(move || part(first))).collect();
        let mut all = part(0);
        for other in others {
            let other = other.join().expect("a check does not panic");
            all = all.and_then(|all| Ok(sum(all, &other?)));
        }
        all
    })
}

fn sum(mut all: Seen, other: &Seen) -> Seen {
    for (all, other) in all.iter_mut().zip(other) {
        all.iter_mut().zip(other).for_each(|(count, more)| *count += more);
    }
    all
}
