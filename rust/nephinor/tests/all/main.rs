//! The calls as Rust has them: what comes back where they are done and where they are refused, and
//! that the header for C says the same. The library is for x86-64, and so are the tests that call it.

#[cfg(target_arch = "x86_64")]
mod calls;
mod header;
#[cfg(target_arch = "x86_64")]
mod making;
