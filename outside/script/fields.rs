//! The fields of the card record by their names in a script, in the order of docs/LAYOUT.md. Sizes and places are in bytes.

use outside::ciphers::plain::{BLOCK_BYTES, KEY_BYTES};
use outside::model::card::*;
use std::ops::Range;

/// The fields of a session, which a card has after its stage.
const SESSION_FIELDS: [(&str, usize); 3] = [("enc_key", KEY_BYTES), ("mac_key", KEY_BYTES), ("iv", BLOCK_BYTES)];

/// Every field's name and size.
const CARD_FIELDS: [(&str, usize); 39] = [
    ("initialised", 1),
    ("uid", UID_BYTES),
    ("public_key", POINT_BYTES),
    ("pin", PIN_BYTES),
    ("puk", PUK_BYTES),
    ("pin_tries", 1),
    ("puk_tries", 1),
    ("verified", 1),
    ("secret", SECRET_BYTES),
    ("slot0.filled", 1),
    ("slot0.key", KEY_BYTES),
    ("slot1.filled", 1),
    ("slot1.key", KEY_BYTES),
    ("slot2.filled", 1),
    ("slot2.key", KEY_BYTES),
    ("slot3.filled", 1),
    ("slot3.key", KEY_BYTES),
    ("slot4.filled", 1),
    ("slot4.key", KEY_BYTES),
    ("slot5.filled", 1),
    ("slot5.key", KEY_BYTES),
    ("slot6.filled", 1),
    ("slot6.key", KEY_BYTES),
    ("slot7.filled", 1),
    ("slot7.key", KEY_BYTES),
    ("pending", 1),
    ("expected", CRYPTOGRAM_BYTES),
    ("key_kind", 1),
    ("key_uid", KEY_UID_BYTES),
    ("current.len", 1),
    ("current.bytes", PATH_BYTES),
    ("pinless.len", 1),
    ("pinless.bytes", PATH_BYTES),
    ("stage", 1),
    SESSION_FIELDS[0],
    SESSION_FIELDS[1],
    SESSION_FIELDS[2],
    ("tap.len", 1),
    ("tap.bytes", TAP_BYTES),
];

/// A field's name and its place in the record.
pub type Field = (&'static str, Range<usize>);

/// The fields of a record with their places, the first at 0.
fn placed(fields: &[(&'static str, usize)]) -> Vec<Field> {
    let mut start = 0;
    let place = |&(name, bytes): &(&'static str, usize)| {
        let field = (name, start..start + bytes);
        start += bytes;
        field
    };
    fields.iter().map(place).collect()
}

pub fn card_fields() -> Vec<Field> {
    placed(&CARD_FIELDS)
}

pub fn session_fields() -> Vec<Field> {
    placed(&SESSION_FIELDS)
}

/// The card's own session.
pub fn session_place() -> Range<usize> {
    let place = |name: &str| card_field(name.as_bytes()).expect("a field of the card").1;
    place(SESSION_FIELDS[0].0).start..place(SESSION_FIELDS[2].0).end
}

/// The field of the card with this name, if it has one.
pub fn card_field(name: &[u8]) -> Option<Field> {
    card_fields().into_iter().find(|field| field.0.as_bytes() == name)
}
