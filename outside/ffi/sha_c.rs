//! The function of the proved library `sha_c`, for Rust. A slice is passed as its start and its length in bytes. The answers are 0 (done) and
//! 1 (the room for the digest has another length than 32 bytes, and nothing is changed); crates/sha_c/specs/Calls.antt says so.

mod c {
    extern "C" {
        pub fn tw_sha256(message: *const u8, message_bytes: usize, digest: *mut u8, digest_bytes: usize) -> u8;
    }
}

// Safe: both slices are borrowed for the call, the mutable one from no other, which is all that the library asks.
pub fn sha256(message: &[u8], digest: &mut [u8]) -> u8 {
    unsafe { c::tw_sha256(message.as_ptr(), message.len(), digest.as_mut_ptr(), digest.len()) }
}
