//! Reading bytes one after another, never past their end, and the form of an operand, which blocks
//! and lists share.

use crate::block::{Operand, Place};

/// A part of the bytes, and how far it has been read.
pub struct Cursor<'a> {
    bytes: &'a [u8],
    read: usize,
}

impl<'a> Cursor<'a> {
    pub fn new(bytes: &'a [u8]) -> Cursor<'a> {
        Cursor { bytes, read: 0 }
    }

    pub fn at_end(&self) -> bool {
        self.read == self.bytes.len()
    }

    pub fn byte(&mut self) -> Option<u8> {
        let byte = *self.bytes.get(self.read)?;
        self.read += 1;
        Some(byte)
    }

    /// Two bytes, big-endian.
    pub fn pair(&mut self) -> Option<u16> {
        Some(u16::from_be_bytes([self.byte()?, self.byte()?]))
    }

    /// Four bytes, big-endian.
    pub fn word(&mut self) -> Option<u32> {
        let bytes = [self.byte()?, self.byte()?, self.byte()?, self.byte()?];
        Some(u32::from_be_bytes(bytes))
    }

    /// A record: one byte that counts the rest, and that rest as a cursor of its own.
    pub fn record(&mut self) -> Option<Cursor<'a>> {
        let length = usize::from(self.byte()?);
        let part = self.bytes.get(self.read..self.read + length)?;
        self.read += length;
        Some(Cursor::new(part))
    }

    /// An operand; none if the bytes end or the kind is unknown.
    pub fn operand(&mut self) -> Option<Operand> {
        match self.byte()? {
            0 => Some(Operand::Constant(self.word()?)),
            1 => Some(Operand::Held(Place::Variable(self.byte()?))),
            2 => Some(Operand::Held(Place::Cell(self.byte()?, self.byte()?))),
            _ => None,
        }
    }

    /// A place: an operand that is no constant.
    pub fn place(&mut self) -> Option<Place> {
        match self.operand()? {
            Operand::Held(place) => Some(place),
            _ => None,
        }
    }
}

/// Appends an operand as `Cursor::operand` reads it; nothing is written for `Nothing`.
pub fn append_operand(bytes: &mut Vec<u8>, operand: Operand) {
    match operand {
        Operand::Nothing => {}
        Operand::Constant(value) => {
            bytes.push(0);
            bytes.extend(value.to_be_bytes());
        }
        Operand::Held(Place::Variable(number)) => bytes.extend([1, number]),
        Operand::Held(Place::Cell(array, index)) => bytes.extend([2, array, index]),
    }
}

/// Appends a record, led by the length of the rest. No record of a block or list is above 255.
pub fn append_record(bytes: &mut Vec<u8>, record: &[u8]) {
    bytes.push(record.len() as u8);
    bytes.extend(record);
}
