//! The numbers that document 01 returns when a call is refused.

/// Done, which is no refusal.
pub const DONE: u8 = 0;

/// Why a call was refused; the discriminant is the document's number.
#[derive(Clone, Copy, Debug, PartialEq, Eq)]
pub enum Refusal {
    /// The block's version is not 1.
    Version = 1,
    /// Under 7 bytes, or the stated length is not the number given.
    Length = 2,
    /// A count or an array length against its limit.
    Limit = 3,
    /// The bytes do not have the form of a block.
    Form = 4,
    /// A variable, array or index that is not declared.
    Undeclared = 5,
    /// Variables or cells lent are not exactly as many as declared.
    Lent = 6,
    /// The output room is too small.
    Room = 7,
    /// The bytes do not have the form of a list.
    ListForm = 8,
    /// The list reads well but goes against the rules.
    ListRule = 9,
}

impl Refusal {
    pub fn number(self) -> u8 {
        self as u8
    }
}
