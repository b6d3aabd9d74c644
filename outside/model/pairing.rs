//! PAIR (RULES 6.8): the first step answers the card's cryptogram and its challenge, the final step fills a slot. Each hash is that of the
//! pairing secret and, after it, the other side's challenge or the salt. Lengths are in bytes.

use super::card::*;
use super::commands::*;
use super::hash::{sha256, Digest};
use super::status::*;

pub fn pair(card: &mut Card, apdu: &Apdu, caller: &Caller) -> Outcome {
    let is_final = apdu.p1() == 0x01;
    let was_pending = card.pending == YES;
    let expected = card.expected;
    if is_final {
        card.forget_pending();
    }
    require_p1(apdu, &[0x00, 0x01])?;
    require(!is_final || was_pending, WRONG_P1_P2)?;
    require(card.stage != AUTHENTICATED, CONDITIONS_NOT_SATISFIED)?;
    require(apdu.data.len() == CRYPTOGRAM_BYTES, WRONG_DATA)?;
    let free = card.first_free_slot().ok_or(End::Status(NO_SPACE))?;
    if is_final {
        pair_final(card, apdu.data, &expected, free, caller)
    } else {
        pair_first(card, apdu.data, caller)
    }
}

/// SHA-256 of the card's pairing secret and these bytes after it.
fn hash_with_secret(card: &Card, bytes: &[u8]) -> Digest {
    sha256(&[&card.pairing_secret, bytes].concat())
}

/// The data are the client's challenge; the supply is the card's.
fn pair_first(card: &mut Card, client_challenge: &[u8], caller: &Caller) -> Outcome {
    let card_challenge = caller.supply(FOR_PAIR_FIRST, client_challenge)?;
    card.pending = YES;
    card.expected = hash_with_secret(card, card_challenge);
    Ok(Reply::success([&hash_with_secret(card, client_challenge), card_challenge].concat()))
}

/// The data are the client's cryptogram. A pending pairing has a free slot, so the card is not full here.
fn pair_final(card: &mut Card, cryptogram: &[u8], expected: &[u8], free: usize, caller: &Caller) -> Outcome {
    require(cryptogram == expected, SECURITY_NOT_SATISFIED)?;
    let salt = caller.supply(FOR_PAIR_FINAL, cryptogram)?;
    card.slots[free] = Slot {
        filled: YES,
        key: hash_with_secret(card, salt),
    };
    Ok(Reply::success([&[free as u8], salt].concat()))
}
