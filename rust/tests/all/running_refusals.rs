//! The order in which running a list refuses: block, 6, all of 8, then 9; and every fault of 8 and
//! 9 by itself.

use crate::help::{block, bytes_of, c, cell, copy, stated, statement, v, variable};
use second::block::ADD;
use second::calls::{make_list, run_block, run_list, Made};

/// Two variables and arrays of 5, 3 and 5 cells: the last cell of b has a neighbour in memory that
/// is none of b's. v0 = a[0] + v1; b[1] = v1.
fn block_bytes() -> Vec<u8> {
    let body = [statement(variable(0), c(0, 0), ADD, v(1)), copy(cell(1, 1), v(1))];
    bytes_of(&block(2, 1, &[5, 3, 5], &body))
}

/// Runs records, each led by its length here, as a list; whatever is refused keeps what is lent.
fn run(records: &[&[u8]]) -> u8 {
    run_bytes(&list(records))
}

fn list(records: &[&[u8]]) -> Vec<u8> {
    let mut bytes = vec![1, 0, 0, records.len() as u8];
    for record in records {
        bytes.push(record.len() as u8);
        bytes.extend(*record);
    }
    stated(bytes)
}

fn run_bytes(list: &[u8]) -> u8 {
    let (mut variables, mut cells) = ([3; 2], [4; 13]);
    let (status, price) = run_list(&block_bytes(), list, &mut variables, &mut cells);
    assert!(status == 0 || (price, variables, cells) == (0, [3; 2], [4; 13]));
    status
}

const TWO_LANES: &[u8] = &[1, 0, 2, 0, 0];
const FOUR_LANES: &[u8] = &[1, 1, 4, 0, 0];

/// Records that are no fault behind `TWO_LANES` and `FOUR_LANES`.
const SOUND: [&[u8]; 22] = [
    &[0, 0],
    &[0, 1],
    &[1, 2, 2, 0, 3],
    &[1, 2, 4, 0, 1],
    &[1, 2, 2, 1, 1],
    &[2, 2, 2, 0, 0, 0, 1, 255, 255, 255, 255],
    &[2, 2, 4, 0, 0, 0, 1, 0, 0, 0, 2, 0, 0, 0, 3, 0, 0, 0, 4],
    &[3, 2, 2, 0, 0, 0, 0, 9, 0, 0, 0, 0, 9],
    &[3, 2, 4, 1, 1, 2, 1, 2, 0, 0, 0, 0, 0, 2, 2, 4],
    &[4, 2, 0, 2, 0],
    &[4, 2, 0, 4, 1],
    &[4, 2, 7, 2, 0, 0],
    &[4, 2, 1, 4, 1, 1],
    &[5, 0, 2, 1, 1],
    &[5, 1, 4, 0, 1],
    &[5, 1, 4, 2, 1],
    &[6, 0, 1, 1, 2],
    &[6, 1, 3, 0, 4],
    &[7, 0, 0, 0],
    &[7, 0, 1, 1],
    &[7, 1, 3, 1],
    &[7, 1, 2, 0],
];

/// Records at fault by their bytes alone.
const FORM: [&[u8]; 44] = [
    &[],
    &[8, 0],
    &[255],
    &[0],
    &[0, 0, 0],
    &[1, 2, 2, 0],
    &[1, 2, 2, 0, 0, 0],
    &[1, 2, 3, 0, 0],
    &[1, 2, 0, 0, 0],
    &[1, 2, 1, 0, 0],
    &[1, 2, 8, 0, 0],
    &[2],
    &[2, 2],
    &[2, 2, 2],
    &[2, 2, 2, 0, 0, 0, 1, 0, 0, 0],
    &[2, 2, 2, 0, 0, 0, 1, 0, 0, 0, 1, 0],
    &[2, 2, 3, 0, 0, 0, 1, 0, 0, 0, 2, 0, 0, 0, 3],
    &[2, 2, 4, 0, 0, 0, 1, 0, 0, 0, 2, 0, 0, 0, 3],
    &[3, 2, 2, 1, 0],
    &[3, 2, 2, 1, 0, 1],
    &[3, 2, 2, 1, 0, 1, 0, 0],
    &[3, 2, 2, 1, 0, 3, 0],
    &[3, 2, 2, 255, 0, 1, 0],
    &[3, 2, 3, 1, 0, 1, 0, 1, 0],
    &[3, 2, 4, 1, 0, 1, 0, 1, 0],
    &[3, 2, 2, 0, 0, 0, 0, 1, 0],
    &[4, 2, 0, 2],
    &[4, 2, 0, 2, 0, 0],
    &[4, 2, 1, 2, 0],
    &[4, 2, 1, 2, 0, 0, 0],
    &[4, 2, 8, 2, 0, 0],
    &[4, 2, 255, 2, 0],
    &[4, 2, 1, 3, 0, 0],
    &[4, 2, 1, 0, 0, 0],
    &[5, 0, 2, 1],
    &[5, 0, 2, 1, 1, 0],
    &[5, 0, 3, 0, 0],
    &[5, 0, 0, 0, 0],
    &[6, 0, 1, 1],
    &[6, 0, 1, 1, 2, 0],
    &[7, 0, 0],
    &[7, 0, 0, 0, 0],
    &[7],
    &[6],
];

/// Records that read well and name what they may not, behind `TWO_LANES` and `FOUR_LANES`.
const RULE: [&[u8]; 44] = [
    &[0, 2],
    &[0, 255],
    &[1, 1, 2, 0, 0],
    &[1, 3, 2, 0, 0],
    &[1, 255, 2, 0, 0],
    &[1, 2, 2, 0, 4],
    &[1, 2, 4, 0, 2],
    &[1, 2, 2, 1, 2],
    &[1, 2, 4, 1, 0],
    &[1, 2, 2, 2, 255],
    &[1, 2, 2, 3, 0],
    &[1, 2, 2, 255, 0],
    &[2, 1, 2, 0, 0, 0, 1, 0, 0, 0, 2],
    &[2, 3, 2, 0, 0, 0, 1, 0, 0, 0, 2],
    &[3, 0, 2, 1, 0, 1, 0],
    &[3, 3, 2, 1, 0, 1, 0],
    &[3, 2, 2, 1, 2, 1, 0],
    &[3, 2, 2, 1, 0, 2, 3, 0],
    &[3, 2, 2, 1, 0, 2, 1, 3],
    &[3, 2, 4, 1, 0, 1, 0, 1, 0, 1, 255],
    &[4, 1, 0, 2, 0],
    &[4, 3, 0, 2, 0],
    &[4, 2, 0, 2, 2],
    &[4, 2, 0, 4, 0],
    &[4, 2, 0, 2, 1],
    &[4, 2, 0, 2, 255],
    &[4, 2, 1, 2, 0, 1],
    &[4, 2, 1, 2, 0, 2],
    &[4, 2, 1, 4, 1, 0],
    &[5, 2, 2, 0, 0],
    &[5, 0, 4, 0, 0],
    &[5, 1, 2, 0, 0],
    &[5, 0, 2, 1, 2],
    &[5, 1, 4, 0, 2],
    &[5, 1, 4, 1, 0],
    &[5, 0, 2, 3, 0],
    &[6, 2, 0, 0, 0],
    &[6, 0, 2, 0, 0],
    &[6, 1, 4, 0, 0],
    &[6, 0, 255, 0, 0],
    &[6, 0, 0, 1, 3],
    &[6, 0, 0, 3, 0],
    &[7, 0, 2, 0],
    &[7, 0, 0, 2],
];

#[test]
fn sound_records() {
    assert_eq!(run(&[]), 0);
    for record in SOUND {
        assert_eq!(run(&[TWO_LANES, FOUR_LANES, record]), 0, "{record:?}");
    }
}

#[test]
fn every_fault_of_form() {
    for record in FORM {
        assert_eq!(run(&[TWO_LANES, FOUR_LANES, record]), 8, "{record:?}");
    }
}

#[test]
fn every_fault_of_rule() {
    for record in RULE {
        assert_eq!(run(&[TWO_LANES, FOUR_LANES, record]), 9, "{record:?}");
    }
}

/// All of 8 comes before all of 9, also where the 9 stands first in the list.
#[test]
fn form_before_rule() {
    for form in FORM {
        for rule in RULE {
            assert_eq!(run(&[TWO_LANES, FOUR_LANES, rule, form]), 8, "{rule:?} {form:?}");
            assert_eq!(run(&[TWO_LANES, FOUR_LANES, form, rule]), 8, "{form:?} {rule:?}");
        }
    }
}

/// Faults of the list as a whole, each beside a record that would be 9.
#[test]
fn faults_of_the_whole_list() {
    let whole = list(&[&[0, 99]]);
    assert_eq!(run_bytes(&whole), 9);
    for length in 0..whole.len() {
        assert_eq!(run_bytes(&whole[..length]), 8, "{length}");
        if length >= 3 {
            assert_eq!(run_bytes(&stated(whole[..length].to_vec())), 8, "{length}");
        }
    }
    for version in [0, 2, 255] {
        let mut bytes = whole.clone();
        bytes[0] = version;
        assert_eq!(run_bytes(&bytes), 8);
    }
    for (count, more) in [(0, 0), (2, 0), (255, 0), (1, 1), (1, 3)] {
        let mut bytes = whole.clone();
        bytes[3] = count;
        bytes.extend(vec![0; more]);
        assert_eq!(run_bytes(&stated(bytes)), 8, "{count} {more}");
    }
    let mut bytes = whole.clone();
    bytes[2] += 1;
    assert_eq!(run_bytes(&bytes), 8);
    bytes[2] -= 2;
    assert_eq!(run_bytes(&bytes), 8);
    assert_eq!(run_bytes(&vec![1; 65_536 + 257]), 8);
}

/// 160 instructions are allowed and 161 are 8, also where something else would be 9.
#[test]
fn instructions_at_the_limit() {
    let single: &[u8] = &[0, 0];
    assert_eq!(run(&vec![single; 160]), 0);
    assert_eq!(run(&vec![single; 161]), 8);
    let undeclared: &[u8] = &[0, 2];
    assert_eq!(run(&vec![undeclared; 160]), 9);
    assert_eq!(run(&vec![undeclared; 161]), 8);
}

/// 96 registers are allowed; a 97th is 9, and register 95 can be read.
#[test]
fn registers_at_the_limit() {
    let loads: Vec<Vec<u8>> = (0..97).map(|register| vec![1, register, 2, 0, 0]).collect();
    let mut records: Vec<&[u8]> = loads[..96].iter().map(Vec::as_slice).collect();
    assert_eq!(run(&records), 0);
    records.push(&[7, 95, 1, 0]);
    assert_eq!(run(&records), 0);
    records.push(&[7, 96, 1, 0]);
    assert_eq!(run(&records), 9);
    records.pop();
    records.push(&loads[96]);
    assert_eq!(run(&records), 9);
    records.push(&[0]);
    assert_eq!(run(&records), 8);
}

/// A list at fault in 8 or 9, with too few or too many variables or cells, is 6.
#[test]
fn lent_before_list() {
    let broken: [&[u8]; 3] = [&[], &[9, 9, 9, 9], &[1, 0, 7, 1, 2, 0, 99]];
    for (variables, cells) in [(1, 13), (3, 13), (2, 12), (2, 14), (0, 0), (1, 14)] {
        for list in broken {
            let (mut lent, mut lent_cells) = (vec![3; variables], vec![4; cells]);
            let answer = run_list(&block_bytes(), list, &mut lent, &mut lent_cells);
            assert_eq!(answer, (6, 0), "{variables} {cells}");
            assert!(lent.iter().all(|&value| value == 3));
            assert!(lent_cells.iter().all(|&value| value == 4));
        }
        let (mut lent, mut lent_cells) = (vec![3; variables], vec![4; cells]);
        assert_eq!(run_block(&block_bytes(), &mut lent, &mut lent_cells), (6, 0));
    }
}

/// A block at fault comes before all else: before 6, 8, 9 and 7.
#[test]
fn block_before_everything() {
    let sound = block_bytes();
    // Version, stated length, a count, a form and an undeclared place.
    for (at, value, number) in [(0, 2, 1), (2, 0, 2), (3, 33, 3), (14, 8, 4), (16, 2, 5)] {
        let mut bytes = sound.clone();
        bytes[at] = value;
        assert_eq!(run_list(&bytes, &[], &mut [], &mut []), (number, 0));
        assert_eq!(run_list(&bytes, &[9; 9], &mut [3; 2], &mut [4; 13]), (number, 0));
        assert_eq!(run_block(&bytes, &mut [], &mut []), (number, 0));
        let zeros = Made { status: number, length: 0, block_price: 0, list_price: 0 };
        assert_eq!(make_list(&bytes, &mut []), zeros);
    }
}

/// Loads and stores end with their array: what stands behind it in memory is another array.
#[test]
fn rows_stay_in_their_array() {
    assert_eq!(run(&[&[1, 0, 2, 1, 1]]), 0);
    assert_eq!(run(&[&[1, 0, 2, 1, 2]]), 9);
    assert_eq!(run(&[TWO_LANES, &[5, 0, 2, 1, 1]]), 0);
    assert_eq!(run(&[TWO_LANES, &[5, 0, 2, 1, 2]]), 9);
}

/// What a list may do although no list that is made does it: a statement twice or never, any order,
/// any lane into any variable, constants gathered. The price is that of what was run.
#[test]
fn free_lists_are_run() {
    let records: [&[u8]; 6] = [
        &[0, 1],
        &[0, 0],
        &[0, 0],
        &[3, 0, 2, 0, 0, 0, 0, 9, 0, 0, 0, 0, 8],
        &[7, 0, 1, 0],
        &[7, 0, 1, 0],
    ];
    let (mut variables, mut cells) = ([3, 5], [4; 13]);
    let answer = run_list(&block_bytes(), &list(&records), &mut variables, &mut cells);
    // S of b[1] = v1 costs 2, S of v0 = a[0] + v1 costs 2 each, G 2, X 1 each.
    assert_eq!(answer, (0, 2 + 2 + 2 + 2 + 1 + 1));
    assert_eq!(variables, [8, 5]);
    assert_eq!(cells, [4, 4, 4, 4, 4, 4, 5, 4, 4, 4, 4, 4, 4]);
}
