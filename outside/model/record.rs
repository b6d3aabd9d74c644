//! The stored record (RULES 10): what WRITE writes and READ takes. A field is a tag, a length of two bytes, high byte first, and its
//! content; lengths are in bytes.

use super::card::{is_tap_record, Card, Path, Slot, TapRecord, EXTENDED_KEY, KEY_UID_BYTES, NO_KEY, PATH_BYTES, SLOTS, SLOTS_BEFORE, YES};
use super::cipher::KEY_BYTES;
use std::ops::Range;

const INITIALISED: u8 = 0x10;
const UID: u8 = 0x11;
const PUBLIC_KEY: u8 = 0x12;
const PIN: u8 = 0x20;
const PUK: u8 = 0x21;
const PAIRING_SECRET: u8 = 0x22;
const TRIES: u8 = 0x23;
const PAIRING_SLOTS: u8 = 0x24;
const KEY_KIND: u8 = 0x30;
const KEY_UID: u8 = 0x31;
const CURRENT_PATH: u8 = 0x32;
const PINLESS_PATH: u8 = 0x33;
const TAP: u8 = 0x34;

const SLOT_BYTES: usize = 1 + KEY_BYTES;

fn field(tag: u8, content: &[u8]) -> Vec<u8> {
    let length = (content.len() as u16).to_be_bytes();
    [&[tag], &length[..], content].concat()
}

/// The record of a card, sound or not.
pub fn record_of(card: &Card) -> Vec<u8> {
    let mut record = [
        field(INITIALISED, &[card.initialised]),
        field(UID, &card.uid),
        field(PUBLIC_KEY, &card.public_key),
    ]
    .concat();
    if card.initialised == YES {
        let key_uid: &[u8] = if card.key_kind == NO_KEY { &[] } else { &card.key_uid };
        record.extend(field(PIN, &card.pin));
        record.extend(field(PUK, &card.puk));
        record.extend(field(PAIRING_SECRET, &card.pairing_secret));
        record.extend(field(TRIES, &[card.pin_tries, card.puk_tries]));
        record.extend(field(PAIRING_SLOTS, &slots_content(card)));
        record.extend(field(KEY_KIND, &[card.key_kind]));
        record.extend(field(KEY_UID, key_uid));
        record.extend(field(CURRENT_PATH, card.current_path.used()));
        record.extend(field(PINLESS_PATH, card.pinless_path.used()));
        record.extend(field(TAP, card.tap.used()));
    }
    record
}

fn slots_content(card: &Card) -> Vec<u8> {
    card.slots
        .iter()
        .flat_map(|slot| [&[slot.filled], &slot.key[..]].concat())
        .collect()
}

/// The card of a record: a reset, sound one, or none.
pub fn card_of(record: &[u8]) -> Option<Card> {
    let mut left = record;
    let [initialised] = take_array(&mut left, INITIALISED)?;
    let uid = take_array(&mut left, UID)?;
    let public_key = take_array(&mut left, PUBLIC_KEY)?;
    let mut card = Card::fresh(uid, public_key);
    card.initialised = initialised;
    if initialised == YES {
        take_initialised(&mut left, &mut card)?;
    }
    (left.is_empty() && card.is_sound()).then_some(card)
}

/// The fields that an initialised card has after the first three.
fn take_initialised(left: &mut &[u8], card: &mut Card) -> Option<()> {
    card.pin = take_array(left, PIN)?;
    card.puk = take_array(left, PUK)?;
    card.pairing_secret = take_array(left, PAIRING_SECRET)?;
    [card.pin_tries, card.puk_tries] = take_array(left, TRIES)?;
    card.slots = take_slots(left)?;
    [card.key_kind] = take_array(left, KEY_KIND)?;
    card.key_uid = match card.key_kind {
        NO_KEY => take_array::<0>(left, KEY_UID).map(|_| [0; KEY_UID_BYTES])?,
        _ => take_array(left, KEY_UID)?,
    };
    card.current_path = take_path(left, CURRENT_PATH)?;
    card.pinless_path = take_path(left, PINLESS_PATH)?;
    card.tap = take_tap(left)?;
    (card.key_kind <= EXTENDED_KEY).then_some(())
}

/// Field 24: a card's slots, or those of a card of before, which had fewer; the others are then free.
fn take_slots(left: &mut &[u8]) -> Option<[Slot; SLOTS]> {
    let content = take(left, PAIRING_SLOTS)?;
    if ![SLOTS * SLOT_BYTES, SLOTS_BEFORE * SLOT_BYTES].contains(&content.len()) {
        return None;
    }
    let mut slots = [Slot::FREE; SLOTS];
    for (slot, bytes) in slots.iter_mut().zip(content.chunks_exact(SLOT_BYTES)) {
        *slot = Slot {
            filled: bytes[0],
            key: bytes[1..].try_into().ok()?,
        };
    }
    Some(slots)
}

fn take_path(left: &mut &[u8], tag: u8) -> Option<Path> {
    let content = take(left, tag)?;
    (content.len() <= PATH_BYTES).then(|| Path::of(content))
}

/// Field 34: empty, or what SET NDEF takes. A record of before may end without it, with either number of slots.
fn take_tap(left: &mut &[u8]) -> Option<TapRecord> {
    if left.is_empty() {
        return Some(TapRecord::NONE);
    }
    let content = take(left, TAP)?;
    (content.is_empty() || is_tap_record(content)).then(|| TapRecord::of(content))
}

/// Where the content of field 34 lies in a record that has one, found field after field.
pub fn own_tap_record(record: &[u8]) -> Option<Range<usize>> {
    let mut left = record;
    while let Some(&tag) = left.first() {
        let content = take(&mut left, tag)?;
        let end = record.len() - left.len();
        if tag == TAP {
            return Some(end - content.len()..end);
        }
    }
    None
}

/// The content of the next field, which must have this tag and N bytes.
fn take_array<const N: usize>(left: &mut &[u8], tag: u8) -> Option<[u8; N]> {
    take(left, tag)?.try_into().ok()
}

/// The content of the next field, which must have this tag.
fn take<'a>(left: &mut &'a [u8], tag: u8) -> Option<&'a [u8]> {
    let (head, body) = left.split_at_checked(3)?;
    let length = u16::from_be_bytes([head[1], head[2]]) as usize;
    let (content, rest) = body.split_at_checked(length)?;
    *left = rest;
    (head[0] == tag).then_some(content)
}
