//! Why a call was refused: the numbers of document 01 and their sentences.

use crate::calls::Answer;
use std::fmt;

/// A refusal. Everything lent is as it was.
#[derive(Clone, Copy, Debug, PartialEq, Eq)]
pub enum Refusal {
    /// 1: the block's version is not 1.
    BlockVersion,
    /// 2: the block has under 7 bytes, or its stated length is not the number of bytes given.
    BlockLength,
    /// 3: a count or an array's length is over its limit, an array has length 0, or more variables are
    /// live out than there are.
    BlockLimit,
    /// 4: the block's bytes end early or are left over, a record's length is wrong, an operation or a
    /// kind is unknown, or a constant or a number of operands stands where it is not allowed.
    BlockForm,
    /// 5: the block names a variable, an array or an index that it does not declare.
    BlockUndeclared,
    /// 6: the variables or cells lent are not exactly as many as the block declares.
    LentSize,
    /// 7: the room is smaller than the answer, which takes so many elements.
    RoomTooSmall { needed: usize },
    /// 8: the list's bytes are at fault: under 4, version, length, more than 160 instructions, a broken
    /// record, an unknown code, kind or operation, lanes not 2 or 4, or bytes left over.
    ListForm,
    /// 9: the list reads well, but names a statement, place, lane or register against the rules, a 97th
    /// register included.
    ListAgainstRules,
}

impl Refusal {
    /// The refusal that an answer says, if any.
    pub(crate) fn of(answer: Answer) -> Option<Refusal> {
        match answer.status {
            0 => None,
            1 => Some(Refusal::BlockVersion),
            2 => Some(Refusal::BlockLength),
            3 => Some(Refusal::BlockLimit),
            4 => Some(Refusal::BlockForm),
            5 => Some(Refusal::BlockUndeclared),
            6 => Some(Refusal::LentSize),
            7 => Some(Refusal::RoomTooSmall { needed: usize::from(answer.size) }),
            8 => Some(Refusal::ListForm),
            9 => Some(Refusal::ListAgainstRules),
            other => unreachable!("the library answers 0 to 9, and here {other}"),
        }
    }

    /// The number of document 01.
    pub fn number(self) -> u8 {
        match self {
            Refusal::BlockVersion => 1,
            Refusal::BlockLength => 2,
            Refusal::BlockLimit => 3,
            Refusal::BlockForm => 4,
            Refusal::BlockUndeclared => 5,
            Refusal::LentSize => 6,
            Refusal::RoomTooSmall { .. } => 7,
            Refusal::ListForm => 8,
            Refusal::ListAgainstRules => 9,
        }
    }

    fn sentence(self) -> &'static str {
        match self {
            Refusal::BlockVersion => "the block's version is not 1",
            Refusal::BlockLength => {
                "the block has under 7 bytes, or its stated length is not the number of bytes given"
            }
            Refusal::BlockLimit => {
                "a count or an array's length is over its limit, an array has length 0, or more \
                 variables are live out than there are"
            }
            Refusal::BlockForm => {
                "the block's bytes end early or are left over, a record's length is wrong, an \
                 operation or a kind is unknown, or a constant or a number of operands stands \
                 where it is not allowed"
            }
            Refusal::BlockUndeclared => {
                "the block names a variable, an array or an index that it does not declare"
            }
            Refusal::LentSize => {
                "the variables or cells lent are not exactly as many as the block declares"
            }
            Refusal::RoomTooSmall { .. } => "the room is smaller than the answer",
            Refusal::ListForm => {
                "the list's bytes are at fault: under 4, version, length, more than 160 \
                 instructions, a broken record, an unknown code, kind or operation, lanes not 2 or \
                 4, or bytes left over"
            }
            Refusal::ListAgainstRules => {
                "the list reads well, but names a statement, place, lane or register against the \
                 rules"
            }
        }
    }
}

impl fmt::Display for Refusal {
    fn fmt(&self, to: &mut fmt::Formatter) -> fmt::Result {
        to.write_str(self.sentence())?;
        match self {
            Refusal::RoomTooSmall { needed } => write!(to, ", which takes {needed}"),
            _ => Ok(()),
        }
    }
}

impl std::error::Error for Refusal {}
