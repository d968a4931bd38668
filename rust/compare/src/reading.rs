//! Reading a block: status, size, and every number of the table, by both.

use crate::difference::{Bytes, Comparing, Difference};
use crate::lent::{Lent, Manner};
use crate::library::{self, Answer, TABLE};
use crate::tables::table_of;
use second::calls::read_block as second_read;
use second::random::Random;
use second::text;

/// Reads into a table that mostly is just large enough; a block that reads is written again.
pub fn check(manner: Manner, random: &mut Random, bytes: &[u8]) -> Result<u8, Difference> {
    let size = random.pick(&[0, TABLE - 1, TABLE, TABLE, TABLE, TABLE, TABLE + 1]);
    let status = read_block(manner, bytes, &random.contents(size))?;
    if status == 0 {
        both_ways(manner, bytes)?;
    }
    Ok(status)
}

/// Reads by both into a table with these contents. A refusal leaves every number, and so do the
/// numbers behind the answer.
pub fn read_block(manner: Manner, bytes: &[u8], before: &[u32]) -> Result<u8, Difference> {
    let mut expected = before.to_vec();
    let (status, block) = second_read(bytes);
    let (status, size) = match (status, before.len() < TABLE) {
        (0, false) => {
            expected[..TABLE].copy_from_slice(&table_of(&block));
            (0, TABLE)
        }
        (0, true) => (7, TABLE),
        _ => (status, 0),
    };
    let given = Lent::new(manner, bytes, 0xA5);
    let mut table = Lent::new(manner, before, 0x0123_ABCD);
    let answer = library::read_block(given.contents(), table.part());
    let to = Comparing {
        given: &|| format!("read-block {} into {} numbers", text::hex(bytes), before.len()),
    };
    let expected_answer = Answer { status, size: size as u16, price: 0, list_price: 0 };
    to.same("the numbers returned", expected_answer, answer)?;
    to.same("the table", &expected[..], table.contents())?;
    to.same("what was read", Bytes(bytes), Bytes(given.contents()))?;
    to.same("the borders kept", (true, true), (given.kept_borders(), table.kept_borders()))?;
    Ok(status)
}

/// The bytes of a block that reads come back where its table is written.
pub fn both_ways(manner: Manner, bytes: &[u8]) -> Result<(), Difference> {
    let mut table = Lent::new(manner, &[0; TABLE], 0x0123_ABCD);
    library::read_block(bytes, table.part());
    let mut room = Lent::new(manner, &vec![0xA5; bytes.len()], !0xA5);
    let answer = library::write_block(table.contents(), room.part());
    let to = Comparing {
        given: &|| format!("write-block of what read-block {} leaves", text::hex(bytes)),
    };
    let expected = Answer { status: 0, size: bytes.len() as u16, price: 0, list_price: 0 };
    to.same("the numbers returned", expected, answer)?;
    to.same("the room", Bytes(bytes), Bytes(room.contents()))
}
