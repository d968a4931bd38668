//! Blocks as the wrapper for Rust has them: read and written again they are the same bytes, and a
//! refusal has the second program's number.

use compare::{case, KINDS};
use second::calls::read_block;

#[test]
fn blocks_come_back() {
    for number in 0..500 * 2 * KINDS {
        let bytes = case(number).bytes;
        match (nephinor::read_block(&bytes), read_block(&bytes)) {
            (Ok(block), (0, second)) => {
                assert_eq!(block.statements.len(), usize::from(second.statement_count));
                assert_eq!(block.cell_count(), second.cell_count());
                let mut room = vec![0; bytes.len()];
                assert_eq!(nephinor::write_block(&block, &mut room), Ok(bytes.len()));
                assert_eq!(room[..], bytes[..], "case {number}");
            }
            (Err(refusal), (status, _)) => assert_eq!(refusal.number(), status, "case {number}"),
            (Ok(_), (status, _)) => panic!("case {number}: done, and {status}"),
        }
    }
}
