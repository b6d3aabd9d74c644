//! Keycard's derivations, from the table of docs/INTEGRATION.md, 5.1. The channel's keys both ends work out alike; the others are the terminal's,
//! as the card works them out itself. Lengths are in bytes.

use treadlewisp::{wipe, KEY_BYTES, PUBLIC_KEY_BYTES};

use crate::crypto::{halves, sha256, sha512, Secret};

/// PAIR: the answer to a challenge, 32 bytes, by one that knows the pairing secret.
pub fn cryptogram(pairing_secret: &[u8; KEY_BYTES], challenge: &[u8; KEY_BYTES]) -> [u8; KEY_BYTES] {
    sha256(&[pairing_secret, challenge])
}

/// PAIR: the pairing key, which both ends keep.
pub fn pairing_key(pairing_secret: &[u8; KEY_BYTES], salt: &[u8; KEY_BYTES]) -> Secret {
    Secret(sha256(&[pairing_secret, salt]))
}

/// OPEN: the channel's encryption key and MAC key.
pub fn channel_keys(ecdh_secret: &Secret, pairing_key: &[u8; KEY_BYTES], salt: &[u8; KEY_BYTES]) -> (Secret, Secret) {
    let mut hash = sha512(&[&ecdh_secret.0, pairing_key, salt]);
    let keys = halves(&hash);
    wipe(&mut hash);
    keys
}

/// LOAD: the key's UID, for a terminal that compares it.
pub fn key_uid(public_key: &[u8; PUBLIC_KEY_BYTES]) -> [u8; KEY_BYTES] {
    sha256(&[public_key])
}
