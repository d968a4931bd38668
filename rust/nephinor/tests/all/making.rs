//! Making a list, done and refused.

use nephinor::{make_list, Made, Refusal};

/// Worked block 1: no statements.
const BLOCK: [u8; 7] = [1, 0, 7, 0, 0, 0, 0];

#[test]
fn made() {
    let mut room = [7; 5];
    let made = make_list(&BLOCK, &mut room);
    assert_eq!(made, Ok(Made { length: 4, block_price: 0, list_price: 0 }));
    assert_eq!(room, [1, 0, 4, 0, 7]);
}

#[test]
fn refused() {
    let mut room = [7; 3];
    assert_eq!(make_list(&BLOCK, &mut room), Err(Refusal::RoomTooSmall { needed: 4 }));
    assert_eq!(make_list(&BLOCK[..6], &mut room), Err(Refusal::BlockLength));
    assert_eq!(room, [7; 3]);
}
