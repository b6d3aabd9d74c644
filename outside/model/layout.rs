//! The model's card and session as the bytes that a caller lends, field after field (docs/LAYOUT.md). Every field is made of bytes, so there
//! is no padding between them. Lengths are in bytes.

use super::card::*;
use super::cipher::{BLOCK_BYTES, KEY_BYTES};
use std::mem::size_of;

pub const CARD_BYTES: usize = size_of::<Card>();
pub const SESSION_BYTES: usize = 2 * KEY_BYTES + BLOCK_BYTES;

pub fn card_bytes(card: &Card) -> Vec<u8> {
    let mut bytes = vec![card.initialised];
    bytes.extend(card.uid);
    bytes.extend(card.public_key);
    bytes.extend(card.pin);
    bytes.extend(card.puk);
    bytes.extend([card.pin_tries, card.puk_tries, card.verified]);
    bytes.extend(card.pairing_secret);
    for slot in card.slots {
        bytes.push(slot.filled);
        bytes.extend(slot.key);
    }
    bytes.push(card.pending);
    bytes.extend(card.expected);
    bytes.push(card.key_kind);
    bytes.extend(card.key_uid);
    for path in [card.current_path, card.pinless_path] {
        bytes.push(path.used_bytes);
        bytes.extend(path.bytes);
    }
    bytes.push(card.stage);
    bytes.extend(session_bytes(&card.session));
    bytes.push(card.tap.used_bytes);
    bytes.extend(card.tap.bytes);
    bytes
}

pub fn session_bytes(session: &Session) -> Vec<u8> {
    [&session.enc_key[..], &session.mac_key, &session.iv].concat()
}

/// Takes the next N bytes.
fn next<const N: usize>(left: &mut &[u8]) -> [u8; N] {
    let (part, rest) = left.split_at(N);
    *left = rest;
    part.try_into().expect("N bytes")
}

fn next_byte(left: &mut &[u8]) -> u8 {
    next::<1>(left)[0]
}

/// The card of these bytes, sound or not.
pub fn card_of(bytes: &[u8]) -> Card {
    let mut left = bytes;
    let initialised = next_byte(&mut left);
    let mut card = Card::fresh(next(&mut left), next(&mut left));
    card.initialised = initialised;
    card.pin = next(&mut left);
    card.puk = next(&mut left);
    [card.pin_tries, card.puk_tries, card.verified] = next(&mut left);
    card.pairing_secret = next(&mut left);
    for slot in &mut card.slots {
        slot.filled = next_byte(&mut left);
        slot.key = next(&mut left);
    }
    card.pending = next_byte(&mut left);
    card.expected = next(&mut left);
    card.key_kind = next_byte(&mut left);
    card.key_uid = next(&mut left);
    for path in [&mut card.current_path, &mut card.pinless_path] {
        path.used_bytes = next_byte(&mut left);
        path.bytes = next(&mut left);
    }
    card.stage = next_byte(&mut left);
    card.session = session_of(&next::<SESSION_BYTES>(&mut left));
    card.tap.used_bytes = next_byte(&mut left);
    card.tap.bytes = next(&mut left);
    assert!(left.is_empty());
    card
}

/// The session of these 80 bytes.
pub fn session_of(bytes: &[u8]) -> Session {
    let mut left = bytes;
    let session = Session {
        enc_key: next(&mut left),
        mac_key: next(&mut left),
        iv: next(&mut left),
    };
    assert!(left.is_empty());
    session
}
