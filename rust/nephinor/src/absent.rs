//! What stands in for the library on a machine that is not of its kind: programs build there, and end
//! with a sentence where they call it.

macro_rules! absent {
    ($($call:ident($($lent:ty),*);)*) => {$(
        #[allow(clippy::too_many_arguments)] // as many as the export has
        pub unsafe fn $call($(_: $lent),*) -> u64 {
            panic!("libnephinor.a is for x86-64, and this program is not")
        }
    )*};
}

absent! {
    nephinor_read_block(*const u8, usize, *mut u32, usize);
    nephinor_write_block(*const u32, usize, *mut u8, usize);
    nephinor_make_list(*const u8, usize, *mut u8, usize);
    nephinor_run_block(*const u8, usize, *mut u32, usize, *mut u32, usize);
    nephinor_run_list(*const u8, usize, *const u8, usize, *mut u32, usize, *mut u32, usize);
}
