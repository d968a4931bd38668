//! The order in which the reader refuses: every fault alone, every two faults together, and the
//! cases where the bytes end.

use crate::help::stated;
use second::block::Block;
use second::calls::{make_list, read_block, run_block, Made};

/// The parts of a block's bytes, so that faults can be put into each by itself.
#[derive(Clone)]
struct Parts {
    header: [u8; 7],
    lengths: [u8; 4],
    records: [Vec<u8>; 2],
    rest: Vec<u8>,
    stated_too_much: u16,
}

/// v0 = a[0] + v1; b[1] = v1, with two variables and arrays of 2 and 3 cells.
fn sound() -> Parts {
    Parts {
        header: [1, 0, 0, 2, 1, 2, 2],
        lengths: [0, 2, 0, 3],
        records: [vec![8, 1, 1, 0, 2, 0, 0, 1, 1], vec![6, 0, 2, 1, 1, 1, 1]],
        rest: Vec::new(),
        stated_too_much: 0,
    }
}

fn bytes(parts: &Parts) -> Vec<u8> {
    let lengths = &parts.lengths[..];
    let [first, second] = &parts.records;
    let mut bytes = [&parts.header[..], lengths, first, second, &parts.rest].concat();
    let stated = bytes.len() as u16 + parts.stated_too_much;
    bytes[1..3].copy_from_slice(&stated.to_be_bytes());
    bytes
}

fn status(bytes: &[u8]) -> u8 {
    let (status, block) = read_block(bytes);
    assert!(status == 0 || block == Block::EMPTY);
    // The other calls read the block in the same way, before anything else.
    let mut room = [7; 100];
    let made = make_list(bytes, &mut room);
    let (run, _) = run_block(bytes, &mut [5; 2], &mut [5; 5]);
    assert_eq!((made.status, run), (status, status));
    let zeros = Made { status, length: 0, block_price: 0, list_price: 0 };
    assert!(status == 0 || made == zeros && room == [7; 100]);
    status
}

/// Adds bytes to a record, with a count byte that fits.
fn lengthen(record: &mut Vec<u8>, more: &[u8]) {
    record.extend(more);
    record[0] += more.len() as u8;
}

type Fault = (u8, fn(&mut Parts));

/// The faults in the order that the document gives; those of one group have no order.
fn groups() -> Vec<Vec<Fault>> {
    vec![
        vec![(1, |p| p.header[0] = 0), (1, |p| p.header[0] = 2)],
        vec![(2, |p| p.stated_too_much = 1), (2, |p| p.stated_too_much = 256)],
        vec![
            (3, |p| p.header[3] = 33),
            (3, |p| p.header[4] = 3),
            (3, |p| p.header[5] = 9),
            (3, |p| p.header[6] = 65),
        ],
        vec![(3, |p| p.lengths[1] = 0), (3, |p| p.lengths[0] = 1)],
        vec![(3, |p| p.lengths[3] = 0), (3, |p| p.lengths[2] = 1)],
        form_faults_of_the_first(),
        vec![
            (5, |p| p.records[0][3] = 2),
            (5, |p| p.records[0][5] = 2),
            (5, |p| p.records[0][6] = 2),
            (5, |p| p.records[0][8] = 2),
        ],
        vec![
            (4, |p| p.records[1][1] = 8),
            (4, |p| p.records[1][2] = 0),
            (4, |p| lengthen(&mut p.records[1], &[1, 0])),
            (4, |p| p.records[1][0] = 255),
        ],
        vec![(5, |p| p.records[1][4] = 3), (5, |p| p.records[1][6] = 2)],
        vec![(4, |p| p.rest.push(0)), (4, |p| p.rest.extend([6, 0, 2, 1, 1, 1, 1]))],
    ]
}

/// An unknown operation, unknown kinds, a constant as destination, a copy with two operands, count
/// bytes that do not fit.
fn form_faults_of_the_first() -> Vec<Fault> {
    vec![
        (4, |p| p.records[0][1] = 8),
        (4, |p| p.records[0][1] = 0),
        (4, |p| p.records[0][2] = 0),
        (4, |p| p.records[0][2] = 3),
        (4, |p| p.records[0][4] = 3),
        (4, |p| p.records[0][7] = 255),
        (4, |p| p.records[0][0] = 7),
        (4, |p| p.records[0][0] = 9),
        (4, |p| p.records[0][0] = 0),
        (4, |p| p.records[0][0] = 200),
        (4, |p| lengthen(&mut p.records[0], &[0])),
    ]
}

#[test]
fn sound_block_is_read() {
    assert_eq!(status(&bytes(&sound())), 0);
}

#[test]
fn every_fault_alone() {
    for (number, fault) in groups().concat() {
        let mut parts = sound();
        fault(&mut parts);
        assert_eq!(status(&bytes(&parts)), number);
    }
}

/// Of two faults the one of the earlier group gives the number.
#[test]
fn every_two_faults() {
    let groups = groups();
    for (place, earlier) in groups.iter().enumerate() {
        for (number, fault) in earlier {
            for (_, other) in groups[place + 1..].concat() {
                let mut parts = sound();
                other(&mut parts);
                fault(&mut parts);
                assert_eq!(status(&bytes(&parts)), *number, "{:?}", bytes(&parts));
            }
        }
    }
}

/// Under seven bytes is 2 whatever they say; with seven, the version comes before the length.
#[test]
fn short() {
    for length in 0..7 {
        assert_eq!(status(&[1, 0, length as u8, 0, 0, 0][..length.min(6)]), 2);
        assert_eq!(status(&[9, 0, 99, 255, 255, 255][..length.min(6)]), 2);
    }
    assert_eq!(status(&[9, 0, 99, 255, 255, 255, 255]), 1);
    assert_eq!(status(&[1, 0, 99, 255, 255, 255, 255]), 2);
    assert_eq!(status(&[1, 0, 7, 255, 255, 255, 255]), 3);
    assert_eq!(status(&[1, 0, 7, 0, 0, 0, 1]), 4);
    // No length that can be stated is that of so many bytes.
    assert_eq!(status(&vec![1; 65_536 + 257]), 2);
}

/// Array by array: 4 if the bytes end, else 3.
#[test]
fn array_lengths_that_end() {
    let read = |lengths: &[u8], arrays: u8, statements: u8| {
        status(&stated([&[1, 0, 0, 2, 0, arrays, statements], lengths].concat()))
    };
    assert_eq!(read(&[], 1, 0), 4);
    assert_eq!(read(&[0], 1, 0), 4);
    assert_eq!(read(&[1], 1, 0), 4);
    assert_eq!(read(&[0, 0], 2, 0), 3);
    assert_eq!(read(&[0, 0, 0], 2, 0), 3);
    assert_eq!(read(&[1, 1], 2, 0), 3);
    assert_eq!(read(&[0, 1], 2, 0), 4);
    assert_eq!(read(&[0, 1, 0], 2, 0), 4);
    // Header counts come before lengths that end.
    assert_eq!(read(&[], 9, 0), 3);
    assert_eq!(read(&[0, 1], 2, 65), 3);
    // The limits themselves are no fault: length 256, and five cells in all for the running.
    let (read, block) = read_block(&stated([&[1, 0, 0, 32, 32, 1, 0][..], &[1, 0]].concat()));
    assert_eq!((read, block.lengths[0]), (0, 256));
}

/// Blocks that end anywhere are 4 once the header and the stated length are right, except where an
/// undeclared place was named in a record that is whole.
#[test]
fn blocks_that_end_early() {
    let whole = bytes(&sound());
    for length in 7..whole.len() {
        assert_eq!(status(&stated(whole[..length].to_vec())), 4, "{length}");
    }
    let mut undeclared = sound();
    undeclared.records[0][3] = 2;
    let whole = bytes(&undeclared);
    for length in 7..whole.len() {
        let first_is_whole = length >= 7 + 4 + 9;
        let number = if first_is_whole { 5 } else { 4 };
        assert_eq!(status(&stated(whole[..length].to_vec())), number, "{length}");
    }
}

/// A record whose count byte runs past the end is 4, whatever its fields name.
#[test]
fn record_past_the_end() {
    assert_eq!(status(&stated(vec![1, 0, 0, 2, 0, 0, 1, 6, 0, 1, 99, 1, 99])), 4);
    assert_eq!(status(&stated(vec![1, 0, 0, 2, 0, 0, 1, 5, 0, 1, 99, 1, 99])), 5);
    assert_eq!(status(&stated(vec![1, 0, 0, 2, 0, 0, 1, 5, 0, 1, 99, 1, 99, 0])), 5);
}
