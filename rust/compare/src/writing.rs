//! Writing a block: status, size, and every byte of the room, by both.

use crate::difference::{Bytes, Comparing, Difference};
use crate::lent::{Lent, Manner};
use crate::library::{self, Answer, TABLE};
use crate::tables::{block_said, damage_table, table_of};
use second::calls::{read_block, write_block as second_write};
use second::random::Random;
use second::text;

const MARK: u8 = 0xA5;

/// Writes the block, often with numbers of its table damaged, into a room around its length.
pub fn check(manner: Manner, random: &mut Random, bytes: &[u8]) -> Result<u8, Difference> {
    let mut table = table_of(&read_block(bytes).1);
    if random.percent(60) {
        damage_table(random, &mut table);
    }
    table.truncate(TABLE - usize::from(random.percent(2)));
    table.resize(table.len() + 3 * usize::from(random.percent(5)), 7);
    let length = bytes.len();
    let size = random.pick(&[0, length.saturating_sub(1), length, length + 1, 1000, 1000]);
    write_block(manner, &table, size)
}

/// Writes by both into a room of this size. A refusal leaves every byte, and so do the bytes behind
/// the answer.
pub fn write_block(manner: Manner, table: &[u32], size: usize) -> Result<u8, Difference> {
    let mut expected = vec![MARK; size];
    let (status, length) = match block_said(table) {
        Ok(block) => second_write(&block, &mut expected),
        Err(number) => (number, 0),
    };
    let given = Lent::new(manner, table, 0x0123_ABCD);
    let mut room = Lent::new(manner, &vec![MARK; size], !MARK);
    let answer = library::write_block(given.contents(), room.part());
    let to =
        Comparing { given: &|| format!("write-block {} into {size} bytes", text::numbers(table)) };
    let expected_answer = Answer { status, size: length as u16, price: 0, list_price: 0 };
    to.same("the numbers returned", expected_answer, answer)?;
    to.same("the room", Bytes(&expected), Bytes(room.contents()))?;
    to.same("the table", table, given.contents())?;
    to.same("the borders kept", (true, true), (given.kept_borders(), room.kept_borders()))?;
    Ok(status)
}
