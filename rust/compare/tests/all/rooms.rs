//! Every block of the vectors, read, and written into every room up to one byte more than it takes.

use crate::vectors::lines;
use compare::library::TABLE;
use compare::{both_ways, read_block, table_of, write_block, Manner};
use second::text;

#[test]
fn every_room() {
    let files =
        [("make.txt", 353), ("make-more.txt", 2), ("run-block.txt", 172), ("run-list.txt", 854)];
    for (name, count) in files {
        for line in lines(name, count) {
            let block = line.split(' ').next().expect("a line has a block");
            let bytes = text::parse_hex(block).expect("hexadecimal");
            if let Err(difference) = in_every_room(&bytes) {
                panic!("{difference}");
            }
        }
    }
}

fn in_every_room(bytes: &[u8]) -> Result<(), compare::Difference> {
    if read_block(Manner::Bordered, bytes, &[7; TABLE])? != 0 {
        return Ok(());
    }
    both_ways(Manner::Bordered, bytes)?;
    let table = table_of(&second::calls::read_block(bytes).1);
    for size in 0..=bytes.len() + 1 {
        let status = write_block(Manner::Bordered, &table, size)?;
        assert_eq!(status, if size < bytes.len() { 7 } else { 0 });
    }
    Ok(())
}
