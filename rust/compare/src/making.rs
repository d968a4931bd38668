//! Making a list: status, length, both prices, and every byte of the room, by both.

use crate::difference::{Bytes, Comparing, Difference};
use crate::lent::{Lent, Manner};
use crate::library::{self, Answer};
use second::calls::make_list as second_make;
use second::random::Random;
use second::text;

const MARK: u8 = 0xA5;

/// Makes the list into a room that is large, or about as long as the list.
pub fn check(manner: Manner, random: &mut Random, bytes: &[u8]) -> Result<u8, Difference> {
    let length = second_make(bytes, &mut []).length;
    let around = [0, length.saturating_sub(1), length, length + 1];
    let size = if random.percent(70) { nephinor::LIST_ROOM } else { random.pick(&around) };
    make_list(manner, bytes, size)
}

/// Makes by both into a room of this size. A refusal leaves every byte, and so do the bytes behind the
/// list.
pub fn make_list(manner: Manner, bytes: &[u8], size: usize) -> Result<u8, Difference> {
    let mut expected = vec![MARK; size];
    let made = second_make(bytes, &mut expected);
    let given = Lent::new(manner, bytes, MARK);
    let mut room = Lent::new(manner, &vec![MARK; size], !MARK);
    let answer = library::make_list(given.contents(), room.part());
    let to = Comparing { given: &|| format!("make {} into {size} bytes", text::hex(bytes)) };
    let expected_answer = Answer {
        status: made.status,
        size: made.length as u16,
        price: made.block_price as u16,
        list_price: made.list_price as u16,
    };
    to.same("the numbers returned", expected_answer, answer)?;
    to.same("the room", Bytes(&expected), Bytes(room.contents()))?;
    to.same("what was read", Bytes(bytes), Bytes(given.contents()))?;
    to.same("the borders kept", (true, true), (given.kept_borders(), room.kept_borders()))?;
    Ok(made.status)
}
