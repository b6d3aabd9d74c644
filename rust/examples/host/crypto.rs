//! Hashes, HMAC and random numbers, by OpenSSL's libcrypto (Debian's package libssl-dev), and secrets that are wiped. Lengths are in bytes.

use std::ffi::{c_int, c_uint, c_void};
use std::io;

use treadlewisp::{wipe, KEY_BYTES};

/// Length of a hash of SHA-512, in bytes.
pub const SHA512_BYTES: usize = 64;
/// What RAND_bytes gives where it is done.
const DONE: c_int = 1;

#[link(name = "crypto")]
extern "C" {
    fn SHA256(message: *const u8, count: usize, hash: *mut u8) -> *mut u8;
    fn SHA512(message: *const u8, count: usize, hash: *mut u8) -> *mut u8;
    fn EVP_sha512() -> *const c_void;
    fn HMAC(
        hash: *const c_void,
        key: *const u8,
        key_bytes: c_int,
        message: *const u8,
        message_bytes: usize,
        mac: *mut u8,
        mac_bytes: *mut c_uint,
    ) -> *mut u8;
    fn RAND_bytes(bytes: *mut u8, count: c_int) -> c_int;
}

/// A key or another secret of 32 bytes. It is overwritten with zeros when it is dropped.
pub struct Secret(pub [u8; KEY_BYTES]);

impl Drop for Secret {
    fn drop(&mut self) {
        wipe(&mut self.0);
    }
}

/// SHA-256 of the parts, joined.
pub fn sha256(parts: &[&[u8]]) -> [u8; KEY_BYTES] {
    let (mut message, mut hash) = (parts.concat(), [0; KEY_BYTES]);
    // SAFETY: the message is given with its length; the hash has the 32 bytes that are written, and is borrowed alone.
    let done = unsafe { SHA256(message.as_ptr(), message.len(), hash.as_mut_ptr()) };
    wipe(&mut message);
    assert!(!done.is_null(), "SHA-256 failed");
    hash
}

/// SHA-512 of the parts, joined.
pub fn sha512(parts: &[&[u8]]) -> [u8; SHA512_BYTES] {
    let (mut message, mut hash) = (parts.concat(), [0; SHA512_BYTES]);
    // SAFETY: the message is given with its length; the hash has the 64 bytes that are written, and is borrowed alone.
    let done = unsafe { SHA512(message.as_ptr(), message.len(), hash.as_mut_ptr()) };
    wipe(&mut message);
    assert!(!done.is_null(), "SHA-512 failed");
    hash
}

/// HMAC-SHA-512 of the parts, joined, under the key: its left and its right 32 bytes.
pub fn hmac_sha512(key: &[u8], parts: &[&[u8]]) -> (Secret, Secret) {
    let (mut message, mut mac, mut mac_bytes) = (parts.concat(), [0; SHA512_BYTES], 0);
    let key_bytes = c_int::try_from(key.len()).expect("a short key");
    // SAFETY: key and message are given with their lengths; the MAC has the 64 bytes that are written, and is borrowed alone.
    let done = unsafe {
        HMAC(
            EVP_sha512(),
            key.as_ptr(),
            key_bytes,
            message.as_ptr(),
            message.len(),
            mac.as_mut_ptr(),
            &mut mac_bytes,
        )
    };
    wipe(&mut message);
    assert!(!done.is_null() && mac_bytes as usize == SHA512_BYTES, "HMAC failed");
    let halves = halves(&mac);
    wipe(&mut mac);
    halves
}

/// The left and the right 32 bytes of 64.
pub fn halves(bytes: &[u8; SHA512_BYTES]) -> (Secret, Secret) {
    let (mut left, mut right) = (Secret([0; KEY_BYTES]), Secret([0; KEY_BYTES]));
    left.0.copy_from_slice(&bytes[..KEY_BYTES]);
    right.0.copy_from_slice(&bytes[KEY_BYTES..]);
    (left, right)
}

/// So many random bytes, good for keys.
pub fn random<const N: usize>() -> io::Result<[u8; N]> {
    let mut bytes = [0; N];
    let count = c_int::try_from(N).expect("a short number");
    // SAFETY: the bytes are given with their length, borrowed alone.
    match unsafe { RAND_bytes(bytes.as_mut_ptr(), count) } {
        DONE => Ok(bytes),
        _ => Err(io::Error::other("no random numbers")),
    }
}
