//! SHA-256, over the proved library `sha_c`.

use crate::ffi;
use crate::secrets::wiped;

/// Length of a digest of SHA-256, in bytes. `TW_DIGEST_BYTES` of `include/sha_c.h`.
pub const DIGEST_BYTES: usize = 32;

/// SHA-256 (FIPS 180-4) of a message of any number of bytes, none included. It is there with the feature `sha256`.
///
/// The library `sha_c` is proved equal to the standard's definition for every message (`docs/RULES.md`, 7.7 to 7.10), and with it no call
/// panics. The message is read where it lies and not copied, and the stack does not grow with it.
///
/// A card needs no call of it: it hashes by itself. It is for terminals, which make PAIR's client cryptogram and pairing key:
///
/// ```
/// use treadlewisp::sha256;
/// let (pairing_secret, card_challenge, salt) = ([0x51; 32], [0x93; 32], [0x91; 32]);
/// let client_cryptogram = sha256(&[pairing_secret, card_challenge].concat());
/// let pairing_key = sha256(&[pairing_secret, salt].concat());
/// # assert_ne!(client_cryptogram, pairing_key);
/// ```
///
/// The standard's first example:
///
/// ```
/// let digest = treadlewisp::sha256(b"abc");
/// assert_eq!(
///     digest,
///     [
///         0xBA, 0x78, 0x16, 0xBF, 0x8F, 0x01, 0xCF, 0xEA, 0x41, 0x41, 0x40, 0xDE, 0x5D, 0xAE, 0x22, 0x23, //
///         0xB0, 0x03, 0x61, 0xA3, 0x96, 0x17, 0x7A, 0x9C, 0xB4, 0x10, 0xFF, 0x61, 0xF2, 0x00, 0x15, 0xAD,
///     ]
/// );
/// ```
#[must_use]
pub fn sha256(message: &[u8]) -> [u8; DIGEST_BYTES] {
    wiped(|| ffi::sha256(message))
}
