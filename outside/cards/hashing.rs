//! What PAIR and LOAD hash (RULES 6.8 and 6.14): pairings from both ends, each with its own hashes, wrong cryptograms, the key UID of each
//! form of LOAD, and supplies of every length. What is wanted is told here, apart from the model. Lengths are in bytes.

use crate::both::{hex, Both};
use crate::directed::ready_card;
use crate::host::room;
use crate::keypairs::Template;
use crate::may_occur::Situation;
use crate::requests::{right, Request};
use crate::sending::{only_iv_moved, send, send_plain};
use outside::hashes::plain::sha256;
use outside::model::card::*;
use outside::model::commands::{Name, FOR_LOAD, FOR_PAIR_FINAL, FOR_PAIR_FIRST};
use outside::model::engine::{ANSWER_ROOM_BYTES, ASK_ROOM_BYTES, NO_FAULT};
use outside::model::status::*;
use outside::random::choice::array;
use outside::random::Random;

const ROUNDS: usize = 8;
/// Supplies are tried with every length up to this one.
const MOST_SUPPLY_BYTES: usize = 140;
const SEED_BYTES: usize = 64;

pub fn run(both: &mut Both, seed: u64) {
    both.walk = "the hashes".to_string();
    let mut random = Random::new(seed.rotate_left(37));
    let random = &mut random;
    for _ in 0..ROUNDS {
        initialised(both, random);
        changed_secret(both, random);
        secret_by_hand(both, random);
    }
    for with_public_key in [false, true] {
        for p1 in [0x01, 0x02, 0x03] {
            loads(both, random, p1, with_public_key);
        }
    }
    pairing_supplies(both, random);
    load_supplies(both, random);
}

fn fail(what: &str, bytes: &[u8]) -> ! {
    println!("THE HASHES: {what}: {}", hex(bytes));
    std::process::exit(1);
}

fn require(holds: bool, what: &str, bytes: &[u8]) {
    if !holds {
        fail(what, bytes);
    }
}

/// The client's end of a pairing: the secret that it was told.
struct Client {
    secret: [u8; SECRET_BYTES],
}

impl Client {
    /// SHA-256 of the secret and these bytes after it.
    fn hash(&self, bytes: &[u8]) -> [u8; 32] {
        sha256(&[&self.secret, bytes].concat())
    }
}

fn first_step(client_challenge: &[u8]) -> Vec<u8> {
    Request::new(Name::Pair, 0x00, client_challenge).plain()
}

fn final_step(cryptogram: &[u8]) -> Vec<u8> {
    Request::new(Name::Pair, 0x01, cryptogram).plain()
}

/// ASK has to tell this kind, and the command's data with it.
fn asks(both: &mut Both, random: &mut Random, card: &Card, command: &[u8], kind: u8) {
    let mut buffer = room(random, ASK_ROOM_BYTES);
    let asked = both.ask(card, command, &mut buffer);
    let is_right = asked.kind == kind && buffer[..asked.count] == command[5..];
    require(is_right, &format!("ASK gave {asked:?} instead of kind {kind}"), command);
}

/// The first step on this card: the client checks the card's cryptogram, and gets the card's challenge.
fn begin(both: &mut Both, random: &mut Random, card: &mut Card, client: &Client) -> [u8; 32] {
    let (client_challenge, card_challenge): ([u8; 32], [u8; 32]) = (array(random), array(random));
    let mut wanted = *card;
    let command = first_step(&client_challenge);
    asks(both, random, card, &command, FOR_PAIR_FIRST);
    let (answered, answer) = send_plain(both, random, card, &command, &card_challenge);
    let cryptogram = client.hash(&client_challenge);
    let wanted_answer = [&cryptogram[..], &card_challenge, &[0x90, 0x00]].concat();
    require(answer == wanted_answer, "the first step's answer", &answer);
    require(answered.fault_offset == NO_FAULT, "the first step's number", &answer);
    (wanted.pending, wanted.expected) = (YES, client.hash(&card_challenge));
    require(
        *card == wanted,
        "the first step changed more, or another cryptogram is awaited",
        &card.expected,
    );
    card_challenge
}

/// The final step: the client computes its cryptogram and the pairing key, and finds the key in the first free slot of the card.
fn finish(both: &mut Both, random: &mut Random, card: &mut Card, cryptogram: &[u8], key_of: &Client) {
    let salt: [u8; 32] = array(random);
    let mut wanted = *card;
    let command = final_step(cryptogram);
    asks(both, random, card, &command, FOR_PAIR_FINAL);
    let (answered, answer) = send_plain(both, random, card, &command, &salt);
    let index = wanted.slots.iter().position(|slot| slot.filled == NO).unwrap_or(SLOTS);
    let wanted_answer = [&[index as u8], &salt[..], &[0x90, 0x00]].concat();
    require(answer == wanted_answer, "the final step's answer", &answer);
    require(answered.fault_offset == NO_FAULT, "the final step's number", &answer);
    (wanted.pending, wanted.expected) = (NO, [0; CRYPTOGRAM_BYTES]);
    wanted.slots[index] = Slot {
        filled: YES,
        key: key_of.hash(&salt),
    };
    require(*card == wanted, "the final step left another card", &card.slots[index].key);
}

/// A wrong cryptogram: 6982 without a supply, and the pairing is no longer pending.
fn is_refused(both: &mut Both, random: &mut Random, card: &Card, cryptogram: &[u8], what: &str) {
    let command = final_step(cryptogram);
    let asked = both.ask(card, &command, &mut room(random, ASK_ROOM_BYTES));
    let mut next = *card;
    let supply = random.bytes(32);
    let (answered, answer) = send_plain(both, random, &mut next, &command, &supply);
    let mut wanted = *card;
    (wanted.pending, wanted.expected) = (NO, [0; CRYPTOGRAM_BYTES]);
    let is_right = (asked.refusal, asked.kind) == (NOT_REFUSED, 0) && answer == [0x69, 0x82] && answered.fault_offset == NO_FAULT;
    require(is_right && next == wanted, &format!("{what} was not refused"), cryptogram);
}

/// Cryptograms that are not the client's: one bit changed in each byte, the secret after the challenge, another secret or challenge, the
/// challenge itself, the hash of only one of the two, and some more.
fn wrong_cryptograms(both: &mut Both, random: &mut Random, card: &Card, client: &Client, card_challenge: &[u8; 32]) {
    let right = client.hash(card_challenge);
    for at in 0..CRYPTOGRAM_BYTES {
        let mut wrong = right;
        wrong[at] ^= 1 << random.below(8);
        is_refused(both, random, card, &wrong, "a bit changed");
    }
    let other = Client { secret: array(random) };
    let others = [
        (
            sha256(&[&card_challenge[..], &client.secret].concat()),
            "the secret after the challenge",
        ),
        (other.hash(card_challenge), "another secret"),
        (*card_challenge, "the challenge"),
        (sha256(card_challenge), "the challenge's hash"),
        (client.hash(&[]), "the secret's hash"),
        (sha256(&right), "a hash of the hash"),
        ([0; 32], "zeros"),
        (client.hash(&array::<32>(random)), "another challenge"),
    ];
    for (wrong, what) in others {
        is_refused(both, random, card, &wrong, what);
    }
}

/// From INIT, whose secret the client was told, until the card is full.
fn initialised(both: &mut Both, random: &mut Random) {
    let mut card = both.fresh(array(random), array(random));
    let init_key = array(random);
    let command = right(random, &card, Name::Init, &init_key).plain();
    let supply = [&[YES], &init_key[..]].concat();
    both.answer(&mut card, &command, &supply, &mut room(random, ANSWER_ROOM_BYTES));
    let client = Client {
        secret: card.pairing_secret,
    };
    for index in 0..SLOTS {
        let card_challenge = begin(both, random, &mut card, &client);
        if index == 0 {
            wrong_cryptograms(both, random, &card, &client, &card_challenge);
        }
        // A second first step replaces the challenge.
        let again = begin(both, random, &mut card, &client);
        is_refused(both, random, &card, &client.hash(&card_challenge), "the challenge before");
        finish(both, random, &mut card, &client.hash(&again), &client);
    }
}

/// CHANGE of the pairing secret: later pairings take the new one, and slots that are filled keep their keys.
fn changed_secret(both: &mut Both, random: &mut Random) {
    let mut card = ready_card(random, Situation::Authenticated);
    let (before, client) = (
        Client {
            secret: card.pairing_secret,
        },
        Client { secret: array(random) },
    );
    let change = Request::new(Name::Change, 0x02, &client.secret);
    let slots = card.slots;
    card = send(both, random, &card, &change, &[]).next;
    both.reset(&mut card);
    require(
        card.slots == slots && card.pairing_secret == client.secret,
        "CHANGE of the secret",
        &card.pairing_secret,
    );
    let card_challenge = begin(both, random, &mut card, &client);
    is_refused(both, random, &card, &before.hash(&card_challenge), "the secret before CHANGE");
    finish(both, random, &mut card, &client.hash(&card_challenge), &client);
}

/// A pending pairing keeps the client's cryptogram, whatever secret the card is handed in with; the key is made with that one.
fn secret_by_hand(both: &mut Both, random: &mut Random) {
    let mut card = ready_card(random, Situation::Closed);
    let before = Client {
        secret: card.pairing_secret,
    };
    let card_challenge = begin(both, random, &mut card, &before);
    card.pairing_secret = array(random);
    let now = Client {
        secret: card.pairing_secret,
    };
    is_refused(both, random, &card, &now.hash(&card_challenge), "the secret set by hand");
    finish(both, random, &mut card, &before.hash(&card_challenge), &now);
}

/// LOAD on a card with another key: the key UID is the hash of the 65 supplied bytes, for each first byte of them, whatever key the
/// template has. Flag 00 is 6A80 and keeps the key; other flags are refused.
fn loads(both: &mut Both, random: &mut Random, p1: u8, with_public_key: bool) {
    let data = match p1 {
        0x03 => random.bytes(SEED_BYTES),
        _ => Template::of(random, p1, with_public_key).bytes,
    };
    let request = Request::new(Name::Load, p1, &data);
    for first in 0..=0xff {
        let card = ready_card(random, Situation::Authenticated);
        let mut key: [u8; POINT_BYTES] = array(random);
        key[0] = first;
        load(both, random, &card, &request, &key);
        for flag in [NO, 2 + random.below(254) as u8] {
            let supply = [&[flag], &key[..]].concat();
            let got = send(both, random, &card, &request, &supply);
            let is_right = match flag {
                NO => got.opened == [0x6a, 0x80] && only_iv_moved(&card, &got.next),
                _ => got.answered.told.refusal == WRONG_SUPPLY && got.next == card,
            };
            require(
                is_right && got.answered.fault_offset == NO_FAULT,
                &format!("LOAD with flag {flag} gave {:x?}", got.answered),
                &data,
            );
        }
    }
    // The template's own key is one that can be supplied as well.
    if p1 != 0x03 && with_public_key {
        let at = data.len() - POINT_BYTES - if p1 == 0x02 { 68 } else { 34 };
        let own = data[at..][..POINT_BYTES].try_into().expect("65 bytes");
        let card = ready_card(random, Situation::Authenticated);
        load(both, random, &card, &request, &own);
    }
}

/// A success with this supplied key.
fn load(both: &mut Both, random: &mut Random, card: &Card, request: &Request, key: &[u8; POINT_BYTES]) {
    let got = send(both, random, card, request, &[&[YES], &key[..]].concat());
    let uid = sha256(key);
    let mut wanted = *card;
    wanted.key_kind = if request.header[2] == 0x01 { SINGLE_KEY } else { EXTENDED_KEY };
    (wanted.key_uid, wanted.current_path, wanted.pinless_path) = (uid, Path::EMPTY, Path::EMPTY);
    let is_right = got.kind == FOR_LOAD && got.opened == [&uid[..], &[0x90, 0x00]].concat() && got.answered.fault_offset == NO_FAULT;
    require(
        is_right && only_iv_moved(&wanted, &got.next),
        "LOAD's answer, number or card",
        &got.opened,
    );
}

/// Supplies of every length for both steps of PAIR: 32 alone, and no first byte is a flag.
fn pairing_supplies(both: &mut Both, random: &mut Random) {
    for bytes in 0..=MOST_SUPPLY_BYTES {
        for first in [0x00, 0x01, 0x02, 0xff] {
            let mut supply = random.bytes(bytes);
            supply.iter_mut().take(1).for_each(|byte| *byte = first);
            let card = ready_card(random, Situation::Pending);
            for command in [first_step(&random.bytes(32)), final_step(&card.expected)] {
                let mut next = card;
                let (answered, _) = send_plain(both, random, &mut next, &command, &supply);
                let wanted = if bytes == 32 { NOT_REFUSED } else { WRONG_SUPPLY };
                let is_kept = bytes == 32 || next == card;
                require(
                    answered.told.refusal == wanted && is_kept && answered.fault_offset == NO_FAULT,
                    &format!("PAIR with a supply of {bytes} bytes gave {answered:x?}"),
                    &command,
                );
            }
        }
    }
}

/// Supplies of every length for LOAD, with each flag: 66 alone, with flag 00 too.
fn load_supplies(both: &mut Both, random: &mut Random) {
    for p1 in [0x01, 0x02, 0x03] {
        let data = match p1 {
            0x03 => random.bytes(SEED_BYTES),
            _ => Template::of(random, p1, true).bytes,
        };
        let request = Request::new(Name::Load, p1, &data);
        for bytes in 0..=MOST_SUPPLY_BYTES {
            for flag in [0x00, 0x01, 0x02, 0xff] {
                let mut supply = random.bytes(bytes);
                supply.iter_mut().take(1).for_each(|byte| *byte = flag);
                let card = ready_card(random, Situation::Authenticated);
                let got = send(both, random, &card, &request, &supply);
                let status = match (bytes, flag) {
                    (66, 0x00) => Some(WRONG_DATA),
                    (66, 0x01) => Some(SUCCESS),
                    _ => None,
                };
                let refusal = if status.is_some() { NOT_REFUSED } else { WRONG_SUPPLY };
                let is_right = (got.answered.told.refusal, got.answered.status) == (refusal, status);
                require(
                    is_right && (status.is_some() || got.next == card) && got.answered.fault_offset == NO_FAULT,
                    &format!("LOAD with a supply of {bytes} bytes and flag {flag} gave {:x?}", got.answered),
                    &data,
                );
            }
        }
    }
}
