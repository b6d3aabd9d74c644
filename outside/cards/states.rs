//! States that the walks begin from or try beside: random sound cards in every stage, cards with one rule of soundness broken, cards with
//! random bytes. Lengths are in bytes.

use crate::paths::{path_at, EVERY_PLACE};
use outside::ffi::treadlewisp::{card_bytes, card_of, CARD_BYTES};
use outside::model::card::*;
use outside::random::choice::{array, chance, digits, pick};
use outside::random::Random;

pub fn random_session(random: &mut Random) -> Session {
    Session {
        enc_key: array(random),
        mac_key: array(random),
        iv: array(random),
    }
}

/// A path of 0 to 10 components; often one near the node of EXPORT's private parts.
pub fn random_path(random: &mut Random) -> Path {
    if chance(random, 50) {
        let place = pick(random, &EVERY_PLACE);
        return Path::of(&path_at(random, place));
    }
    let components = random.below(PATH_BYTES / COMPONENT_BYTES + 1);
    Path::of(&random.bytes(components * COMPONENT_BYTES))
}

/// What SET NDEF takes, of so many bytes: the number of those that follow, and these.
pub fn tap_data(random: &mut Random, bytes: usize) -> Vec<u8> {
    let after_count = bytes - TAP_COUNT_BYTES;
    [&(after_count as u16).to_be_bytes()[..], &random.bytes(after_count)].concat()
}

/// What SET NDEF takes: often of the least or the greatest length.
pub fn random_tap_data(random: &mut Random) -> Vec<u8> {
    let bytes = match random.below(5) {
        0 => pick(random, &[TAP_COUNT_BYTES, TAP_COUNT_BYTES + 1]),
        1 => TAP_BYTES - random.below(2),
        _ => TAP_COUNT_BYTES + random.below(TAP_BYTES - TAP_COUNT_BYTES + 1),
    };
    tap_data(random, bytes)
}

/// An initialised sound card: any tries, slots, key, paths and tap record, in any stage, with or without a pending pairing.
pub fn sound_card(random: &mut Random) -> Card {
    let mut card = Card::fresh(array(random), array(random));
    card.initialised = YES;
    card.pin = digits(random);
    card.puk = digits(random);
    card.pairing_secret = array(random);
    card.pin_tries = pick(random, &[0, 0, 0, 1, 2, PIN_TRIES, PIN_TRIES, PIN_TRIES]);
    card.puk_tries = random.below(PUK_TRIES as usize + 1) as u8;
    fill_slots(random, &mut card);
    fill_key(random, &mut card);
    card.stage = pick(random, &[CLOSED, OPENED, AUTHENTICATED, AUTHENTICATED]);
    if card.stage == AUTHENTICATED && chance(random, 40) {
        (card.verified, card.pin_tries) = (YES, PIN_TRIES);
    }
    if card.stage != CLOSED {
        card.session = random_session(random);
    } else if card.first_free_slot().is_some() && chance(random, 50) {
        card.pending = YES;
        card.expected = array(random);
    }
    if chance(random, 70) {
        card.tap = TapRecord::of(&random_tap_data(random));
    }
    card
}

fn fill_slots(random: &mut Random, card: &mut Card) {
    let percent = pick(random, &[0, 30, 70, 100]);
    for slot in &mut card.slots {
        if chance(random, percent) {
            slot.filled = YES;
            slot.key = array(random);
        }
    }
}

fn fill_key(random: &mut Random, card: &mut Card) {
    card.key_kind = pick(random, &[NO_KEY, SINGLE_KEY, EXTENDED_KEY, EXTENDED_KEY]);
    if card.key_kind != NO_KEY {
        card.key_uid = array(random);
    }
    if chance(random, 60) {
        card.pinless_path = random_path(random);
    }
    if card.key_kind == EXTENDED_KEY {
        card.current_path = if chance(random, 40) {
            card.pinless_path
        } else {
            random_path(random)
        };
    }
}

/// A card with one rule of soundness broken, or with damaged bytes: mostly unsound.
pub fn unsound_card(random: &mut Random, from: &Card) -> Card {
    match random.below(10) {
        0 => card_of(&random.bytes(CARD_BYTES)),
        1..=3 => {
            let mut bytes = card_bytes(from);
            for _ in 0..1 + random.below(2) {
                bytes[random.below(CARD_BYTES)] ^= 1 << random.below(8);
            }
            card_of(&bytes)
        }
        4 => pre_initialised_with_more(random),
        _ => {
            let mut card = if chance(random, 50) { *from } else { sound_card(random) };
            let rule = random.below(RULES);
            break_rule(random, &mut card, rule);
            card
        }
    }
}

/// A pre-initialized card with a byte that is not zero after the public key, mostly.
fn pre_initialised_with_more(random: &mut Random) -> Card {
    let mut bytes = card_bytes(&Card::fresh(array(random), array(random)));
    let at = 1 + UID_BYTES + POINT_BYTES - 1;
    bytes[at + random.below(CARD_BYTES - at)] = 1 << random.below(8);
    card_of(&bytes)
}

/// How many rules of soundness `break_rule` breaks.
pub const RULES: usize = 26;

/// Breaks one rule of soundness (RULES 2.3); some need another field to be as it is not, so a card may stay sound.
pub fn break_rule(random: &mut Random, card: &mut Card, rule: usize) {
    let flag = 2 + random.below(254) as u8;
    let slot = random.below(SLOTS);
    let path = if chance(random, 50) {
        &mut card.current_path
    } else {
        &mut card.pinless_path
    };
    match rule {
        0 => card.initialised = flag,
        1 => card.verified = flag,
        2 => card.pending = flag,
        3 => card.slots[slot].filled = flag,
        4 => card.key_kind = 3 + random.below(253) as u8,
        5 => card.pin[random.below(PIN_BYTES)] = pick(random, &[b'0' - 1, b'9' + 1, 0, 0xff]),
        6 => card.puk[random.below(PUK_BYTES)] = pick(random, &[b'0' - 1, b'9' + 1, 0, 0xff]),
        7 => card.pin_tries = PIN_TRIES + 1 + random.below(3) as u8,
        8 => card.puk_tries = PUK_TRIES + 1 + random.below(3) as u8,
        9 => (card.verified, card.pin_tries) = (YES, random.below(PIN_TRIES as usize) as u8),
        10 => card.stage = 3 + random.below(253) as u8,
        11 => (card.pending, card.stage) = (YES, pick(random, &[OPENED, AUTHENTICATED])),
        12 => {
            (card.pending, card.slots) = (
                YES,
                [Slot {
                    filled: YES,
                    key: array(random),
                }; SLOTS],
            )
        }
        13 => path.used_bytes = pick(random, &[1, 2, 3, 5, 38, 39, 41, 42, 44, 48, 128, 255]),
        14 => change_past_end(random, path),
        15 => (card.key_kind, card.current_path) = (pick(random, &[NO_KEY, SINGLE_KEY]), Path::of(&[0; COMPONENT_BYTES])),
        16 => (card.key_kind, card.key_uid) = (NO_KEY, array(random)),
        17 => (card.slots[slot].filled, card.slots[slot].key) = (NO, array(random)),
        18 => (card.pending, card.expected) = (NO, array(random)),
        19 => (card.stage, card.session) = (CLOSED, random_session(random)),
        20 => {
            (card.verified, card.pin_tries) = (YES, PIN_TRIES);
            if card.stage == AUTHENTICATED {
                card.stage = OPENED;
            }
        }
        _ => break_tap(random, &mut card.tap, rule),
    }
}

/// Breaks a rule of the tap record: too long, a byte after its end, one byte alone, another count at its start, or another length.
fn break_tap(random: &mut Random, tap: &mut TapRecord, rule: usize) {
    let used_bytes = (tap.used_bytes as usize).min(TAP_BYTES);
    match rule {
        21 => tap.used_bytes = TAP_BYTES as u8 + 1 + random.below(255 - TAP_BYTES) as u8,
        22 if used_bytes < TAP_BYTES => tap.bytes[used_bytes + random.below(TAP_BYTES - used_bytes)] ^= 1 << random.below(8),
        23 => (tap.used_bytes, tap.bytes) = (1, [0; TAP_BYTES]),
        24 => tap.bytes[random.below(TAP_COUNT_BYTES)] ^= 1 << random.below(8),
        _ => tap.used_bytes = tap.used_bytes.wrapping_add(pick(random, &[1, 2, 3, 254, 255])),
    }
}

/// A byte past the path's end is not zero any more, where there is one.
fn change_past_end(random: &mut Random, path: &mut Path) {
    let used_bytes = (path.used_bytes as usize).min(PATH_BYTES - 1);
    path.bytes[used_bytes + random.below(PATH_BYTES - used_bytes)] ^= 1;
}
