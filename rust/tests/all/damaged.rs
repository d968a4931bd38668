//! Damaged blocks and lists, lists drawn at random, and bytes that are neither: no call panics, and
//! the answers agree with one another.

use crate::help::{bytes_of, make};
use second::calls::{make_list, read_block, run_block, run_list};
use second::damage::{damage_block, damage_list, random_list};
use second::generator::{self, random_for};
use second::list;
use second::random::Random;

const BLOCKS_OF_A_KIND: u64 = 1000;

/// Every number that a block can be refused with is met.
#[test]
fn damaged_blocks() {
    let mut seen = [0; 10];
    for kind in generator::ALL {
        for number in 0..BLOCKS_OF_A_KIND {
            let mut random = random_for(kind, number, 5);
            let mut bytes = bytes_of(&generator::block(kind, number));
            damage_block(&mut random, &mut bytes);
            let (status, block) = read_block(&bytes);
            seen[usize::from(status)] += 1;
            assert_eq!(make_list(&bytes, &mut [0; 2000]).status, status);
            let mut variables = random.contents(usize::from(block.variables));
            let mut cells = random.contents(block.cell_count());
            assert_eq!(run_block(&bytes, &mut variables, &mut cells).0, status);
            let answer = run_list(&bytes, &[1, 0, 4, 0], &mut variables, &mut cells);
            assert_eq!(answer, (status, 0));
        }
    }
    assert!(seen[..6].iter().all(|&count| count > 100), "{seen:?}");
    assert_eq!(seen[6..], [0; 4]);
}

/// The answer to a list must be that of its two tests, and the price that of its instructions.
fn check_list(random: &mut Random, block: &second::block::Block, bytes: &[u8]) -> u8 {
    let block_bytes = bytes_of(block);
    let mut variables = random.contents(usize::from(block.variables));
    let mut cells = random.contents(block.cell_count());
    let before = (variables.clone(), cells.clone());
    let (status, price) = run_list(&block_bytes, bytes, &mut variables, &mut cells);
    match list::read(bytes) {
        Err(_) => assert_eq!(status, 8),
        Ok(list) => {
            assert_eq!(list::write(&list), bytes);
            match list::allow(block, &list) {
                Err(_) => assert_eq!(status, 9),
                Ok(()) => assert_eq!((status, price), (0, list::price(block, &list))),
            }
        }
    }
    if status != 0 {
        assert_eq!((price, (variables, cells)), (0, before));
    }
    status
}

#[test]
fn damaged_lists() {
    let mut seen = [0; 10];
    for kind in generator::ALL {
        for number in 0..BLOCKS_OF_A_KIND {
            let mut random = random_for(kind, number, 6);
            let block = generator::block(kind, number);
            let (_, mut list) = make(&bytes_of(&block));
            damage_list(&mut random, &mut list);
            seen[usize::from(check_list(&mut random, &block, &list))] += 1;
        }
    }
    assert!(seen[0] > 1000 && seen[8] > 1000 && seen[9] > 1000, "{seen:?}");
}

#[test]
fn random_lists() {
    let mut seen = [0; 10];
    let mut fullest = 0;
    for kind in generator::ALL {
        for number in 0..BLOCKS_OF_A_KIND {
            let mut random = random_for(kind, number, 7);
            let block = generator::block(kind, number);
            let mut list = random_list(&mut random, &block);
            fullest = fullest.max(list[3]);
            if random.percent(20) {
                damage_list(&mut random, &mut list);
            }
            seen[usize::from(check_list(&mut random, &block, &list))] += 1;
        }
    }
    assert!(seen[0] > 3000 && seen[8] > 1000 && seen[9] > 1000, "{seen:?}");
    assert_eq!(fullest, 161);
}

/// Bytes that mean nothing, of small values so that some go a little further.
#[test]
fn any_bytes() {
    let mut random = Random::new(1);
    let block = [1, 0, 9, 2, 1, 1, 0, 0, 4];
    assert_eq!(read_block(&block).0, 0);
    for _ in 0..100_000 {
        let length = random.between(0, 40);
        let highest = random.pick(&[3, 10, 256]);
        let mut bytes: Vec<u8> = (0..length).map(|_| random.below(highest) as u8).collect();
        if length >= 7 && random.percent(90) {
            bytes[..3].copy_from_slice(&[1, 0, length as u8]);
        }
        let status = read_block(&bytes).0;
        assert!(status <= 5);
        assert_eq!(make_list(&bytes, &mut [0; 2000]).status, status);
        let status = run_list(&block, &bytes, &mut [1; 2], &mut [2; 4]).0;
        assert!([0, 8, 9].contains(&status));
    }
}
