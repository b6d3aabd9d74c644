//! The functions of the proved libraries `aes_c` and `aes_word_c`, for Rust. A slice is passed as its start and its length in bytes. The answers
//! are 0 (done), 1 (key length), 2 (IV or head length), 3 (data length) and 4 (MAC length); crates/aes_calls/specs/Calls.antt says when.
//!
//! `cbc_encrypt`, `cbc_decrypt` and `cbc_mac` of `aes_c` are over the plain engine, byte by byte; `cbc_mac_by_tables` and `cbc_encrypt_and_mac` of
//! `aes_word_c` are over the engine from tables. `cbc_encrypt_and_mac` does what SEAL does: the MAC is over the head, 16 bytes, joined to the ciphertext.
//!
//! Callers may cut CBC data after any multiple of 16 bytes: the IV of a part is the last ciphertext block before it, or the first IV where
//! no bytes are before it (RULES 7.6). `ciphers/cuts.rs` does it in both directions.

mod c {
    extern "C" {
        pub fn tw_cbc_encrypt(key: *const u8, key_bytes: usize, iv: *const u8, iv_bytes: usize, buf: *mut u8, buf_bytes: usize) -> u8;
        pub fn tw_cbc_decrypt(key: *const u8, key_bytes: usize, iv: *const u8, iv_bytes: usize, buf: *mut u8, buf_bytes: usize) -> u8;
        pub fn tw_cbc_mac(key: *const u8, key_bytes: usize, text: *const u8, text_bytes: usize, mac: *mut u8, mac_bytes: usize) -> u8;
        pub fn tw_cbc_mac_by_tables(
            key: *const u8,
            key_bytes: usize,
            text: *const u8,
            text_bytes: usize,
            mac: *mut u8,
            mac_bytes: usize,
        ) -> u8;
        pub fn tw_cbc_encrypt_and_mac(
            key: *const u8,
            key_bytes: usize,
            iv: *const u8,
            iv_bytes: usize,
            mac_key: *const u8,
            mac_key_bytes: usize,
            head: *const u8,
            head_bytes: usize,
            buf: *mut u8,
            buf_bytes: usize,
            mac: *mut u8,
            mac_bytes: usize,
        ) -> u8;
    }
}

// Safe: the slices are borrowed for the call, a mutable one from no other, which is all that the library asks.
pub fn cbc_encrypt(key: &[u8], iv: &[u8], buf: &mut [u8]) -> u8 {
    unsafe { c::tw_cbc_encrypt(key.as_ptr(), key.len(), iv.as_ptr(), iv.len(), buf.as_mut_ptr(), buf.len()) }
}

pub fn cbc_decrypt(key: &[u8], iv: &[u8], buf: &mut [u8]) -> u8 {
    unsafe { c::tw_cbc_decrypt(key.as_ptr(), key.len(), iv.as_ptr(), iv.len(), buf.as_mut_ptr(), buf.len()) }
}

pub fn cbc_mac(key: &[u8], text: &[u8], mac: &mut [u8]) -> u8 {
    unsafe { c::tw_cbc_mac(key.as_ptr(), key.len(), text.as_ptr(), text.len(), mac.as_mut_ptr(), mac.len()) }
}

pub fn cbc_mac_by_tables(key: &[u8], text: &[u8], mac: &mut [u8]) -> u8 {
    unsafe { c::tw_cbc_mac_by_tables(key.as_ptr(), key.len(), text.as_ptr(), text.len(), mac.as_mut_ptr(), mac.len()) }
}

pub fn cbc_encrypt_and_mac(key: &[u8], iv: &[u8], mac_key: &[u8], head: &[u8], buf: &mut [u8], mac: &mut [u8]) -> u8 {
    unsafe {
        c::tw_cbc_encrypt_and_mac(
            key.as_ptr(),
            key.len(),
            iv.as_ptr(),
            iv.len(),
            mac_key.as_ptr(),
            mac_key.len(),
            head.as_ptr(),
            head.len(),
            buf.as_mut_ptr(),
            buf.len(),
            mac.as_mut_ptr(),
            mac.len(),
        )
    }
}
