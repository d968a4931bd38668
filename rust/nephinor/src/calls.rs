//! The calls with the library's own numbers: slices go as pointer and length, and what comes back in
//! one number is taken apart. These are the same declarations as in `include/nephinor.h`.

#[cfg(not(target_arch = "x86_64"))]
use crate::absent as exported;

#[cfg(target_arch = "x86_64")]
mod exported {
    extern "C" {
        pub fn nephinor_read_block(
            bytes: *const u8,
            bytes_length: usize,
            table: *mut u32,
            table_length: usize,
        ) -> u64;

        pub fn nephinor_write_block(
            table: *const u32,
            table_length: usize,
            room: *mut u8,
            room_length: usize,
        ) -> u64;

        pub fn nephinor_make_list(
            bytes: *const u8,
            bytes_length: usize,
            room: *mut u8,
            room_length: usize,
        ) -> u64;

        pub fn nephinor_run_block(
            bytes: *const u8,
            bytes_length: usize,
            variables: *mut u32,
            variables_length: usize,
            cells: *mut u32,
            cells_length: usize,
        ) -> u64;

        pub fn nephinor_run_list(
            block: *const u8,
            block_length: usize,
            list: *const u8,
            list_length: usize,
            variables: *mut u32,
            variables_length: usize,
            cells: *mut u32,
            cells_length: usize,
        ) -> u64;
    }
}

/// How many numbers a block in memory takes as a table.
pub const TABLE: usize = 652;

/// What every call returns: the status, a size, and up to two prices, zeros where there is none.
#[derive(Clone, Copy, Debug, PartialEq, Eq)]
pub struct Answer {
    /// 0 for done, else the number of a `Refusal`.
    pub status: u8,
    /// How many elements the answer takes in the room or in the table.
    pub size: u16,
    /// Of a run the price paid; of a list that was made the price of its block.
    pub price: u16,
    /// The price of the list that was made.
    pub list_price: u16,
}

impl Answer {
    /// Bits 0 to 7, 8 to 23, 24 to 39 and 40 to 55; the bits above them are never set.
    pub fn unpacked(number: u64) -> Answer {
        assert_eq!(number >> 56, 0, "bits above the answer are set: {number:#x}");
        Answer {
            status: number as u8,
            size: (number >> 8) as u16,
            price: (number >> 24) as u16,
            list_price: (number >> 40) as u16,
        }
    }
}

/// Reads a block into a table of numbers: status, and how many numbers that takes.
pub fn read_block(bytes: &[u8], table: &mut [u32]) -> Answer {
    // SAFETY: each pointer stands with the length of its own slice, and what is written is borrowed
    // for the call alone. The library keeps none of them.
    Answer::unpacked(unsafe {
        exported::nephinor_read_block(bytes.as_ptr(), bytes.len(), table.as_mut_ptr(), table.len())
    })
}

/// Writes the block that a table of numbers says: status, and how many bytes that takes.
pub fn write_block(table: &[u32], room: &mut [u8]) -> Answer {
    // SAFETY: as for `read_block`.
    Answer::unpacked(unsafe {
        exported::nephinor_write_block(table.as_ptr(), table.len(), room.as_mut_ptr(), room.len())
    })
}

/// Makes the list of a block: status, the list's length, the block's price and the list's.
pub fn make_list(bytes: &[u8], room: &mut [u8]) -> Answer {
    // SAFETY: as for `read_block`.
    Answer::unpacked(unsafe {
        exported::nephinor_make_list(bytes.as_ptr(), bytes.len(), room.as_mut_ptr(), room.len())
    })
}

/// Runs a block on what is lent: status and price paid.
pub fn run_block(bytes: &[u8], variables: &mut [u32], cells: &mut [u32]) -> Answer {
    // SAFETY: as for `read_block`.
    Answer::unpacked(unsafe {
        exported::nephinor_run_block(
            bytes.as_ptr(),
            bytes.len(),
            variables.as_mut_ptr(),
            variables.len(),
            cells.as_mut_ptr(),
            cells.len(),
        )
    })
}

/// Runs a list beside its block on what is lent: status and price paid.
pub fn run_list(block: &[u8], list: &[u8], variables: &mut [u32], cells: &mut [u32]) -> Answer {
    // SAFETY: as for `read_block`.
    Answer::unpacked(unsafe {
        exported::nephinor_run_list(
            block.as_ptr(),
            block.len(),
            list.as_ptr(),
            list.len(),
            variables.as_mut_ptr(),
            variables.len(),
            cells.as_mut_ptr(),
            cells.len(),
        )
    })
}
