//! The eight pairing slots of a card: every index of OPEN and UNPAIR, pairings until the card is full, and the free slots that SELECT counts
//! on the way. What is wanted is told here, apart from the model. Lengths are in bytes.

use crate::both::{hex, Both};
use crate::directed::{filled, ready_card};
use crate::host::{room, supply_for, supply_of, Way};
use crate::may_occur::{Situation, Supplied};
use crate::records::SLOTS_NOW;
use crate::requests::{point, right, Request};
use crate::states::random_session;
use outside::ciphers::plain::BLOCK_BYTES;
use outside::hashes::plain::sha256;
use outside::model::card::*;
use outside::model::commands::{Name, FOR_OPEN, FOR_PAIR_FINAL};
use outside::model::engine::*;
use outside::model::message::{seal_command, HEADER_BYTES};
use outside::model::status::*;
use outside::random::choice::{array, pick};
use outside::random::Random;

/// Where SELECT's answer has the number of free slots, the value of its second field 02, whether there is a key or none.
const FREE_SLOTS_AT: usize = 2 + 18 + 67 + 4 + 2;

pub fn run(both: &mut Both, seed: u64) {
    both.walk = "the slots".to_string();
    let mut random = Random::new(seed.rotate_left(53));
    let random = &mut random;
    for p1 in 0..=0xff {
        opens(both, random, p1);
        unpairs(both, random, p1);
    }
    for _ in 0..4 {
        full_and_empty(both, random);
    }
}

fn fail(what: &str, bytes: &[u8]) -> ! {
    println!("THE SLOTS: {what}: {}", hex(bytes));
    std::process::exit(1);
}

/// A card in this situation whose slots with an index below this one are filled and the others free, or the other way round.
fn card_with(random: &mut Random, situation: Situation, first: usize, filled_first: bool) -> Card {
    let mut card = ready_card(random, situation);
    for index in 0..SLOTS_NOW {
        let is_filled = (index < first) == filled_first;
        card.slots[index] = if is_filled { filled(random) } else { Slot::FREE };
    }
    card
}

/// Each way to have the slots filled up to an index or from it on: none, each number of them, all.
fn every_filling() -> impl Iterator<Item = (usize, bool)> {
    (0..=SLOTS_NOW).flat_map(|first| [(first, true), (first, false)])
}

/// OPEN with this P1: success where it is the index of a filled slot, and else 6A86, before any data and without a supply. From 8 on it is
/// never one.
fn opens(both: &mut Both, random: &mut Random, p1: u8) {
    for (first, filled_first) in every_filling() {
        let situation = pick(random, &[Situation::Closed, Situation::Opened, Situation::Authenticated]);
        let card = card_with(random, situation, first, filled_first);
        let is_filled = p1 < 8 && (usize::from(p1) < first) == filled_first;
        let data = if is_filled { point(random) } else { random.bytes(2) };
        let command = Request::new(Name::Open, p1, &data).plain();
        let asked = both.ask(&card, &command, &mut room(random, ASK_ROOM_BYTES));
        let kind = if is_filled { FOR_OPEN } else { 0 };
        if (asked.refusal, asked.kind) != (NOT_REFUSED, kind) {
            fail(&format!("OPEN of {p1} asked {asked:?}"), &command);
        }
        let mut next = card;
        let supply = supply_of(random, FOR_OPEN, &[0; 32], Supplied::Right);
        let answered = both.answer(&mut next, &command, &supply, &mut room(random, ANSWER_ROOM_BYTES));
        let (status, stage) = if is_filled { (SUCCESS, OPENED) } else { (WRONG_P1_P2, CLOSED) };
        if answered.status != Some(status) || next.stage != stage || next.slots != card.slots {
            fail(&format!("OPEN of {p1} gave {answered:x?}"), &command);
        }
    }
}

/// UNPAIR with this P1: a slot of the card is free then, filled or not before, and no other changed. From 8 on it is 6A86, before a PIN
/// that is not verified.
fn unpairs(both: &mut Both, random: &mut Random, p1: u8) {
    for (first, filled_first) in every_filling() {
        let mut card = card_with(random, Situation::Authenticated, first, filled_first);
        let mut wanted = card.slots;
        let status = match p1 {
            0..=7 => {
                wanted[usize::from(p1)] = Slot::FREE;
                SUCCESS
            }
            _ => {
                card.verified = pick(random, &[NO, YES]);
                WRONG_P1_P2
            }
        };
        let request = Request::new(Name::Unpair, p1, &[]);
        let (opened, next) = sealed(both, random, &card, &request);
        if opened != status.to_be_bytes() || next.slots != wanted {
            fail(&format!("UNPAIR of {p1} gave {}", hex(&opened)), &request.plain());
        }
    }
}

/// The opened answer to a sealed command that reads no supply, and the card after it.
fn sealed(both: &mut Both, random: &mut Random, card: &Card, request: &Request) -> (Vec<u8>, Card) {
    let command = seal_command(&mut card.session.clone(), request.header, &request.data);
    let mut next = *card;
    let mut response = room(random, ANSWER_ROOM_BYTES);
    let answered = both.answer(&mut next, &command, &[], &mut response);
    let mut session = card.session;
    session.iv.copy_from_slice(&command[HEADER_BYTES + 1..][..BLOCK_BYTES]);
    let mut opened = room(random, UNSEAL_ROOM_BYTES);
    let told = both.unseal(&mut session, &response[..answered.told.count], &mut opened);
    opened.truncate(told.count);
    (opened, next)
}

/// The number that SELECT answers on this card, which stays as it is.
fn free_slots(both: &mut Both, random: &mut Random, card: &Card) -> u8 {
    let command = right(random, card, Name::Select, &[0; 32]).plain();
    let mut answer = room(random, ANSWER_ROOM_BYTES);
    let told = both.answer(&mut card.clone(), &command, &[], &mut answer).told;
    if told.refusal != NOT_REFUSED || answer[FREE_SLOTS_AT - 2..FREE_SLOTS_AT] != [0x02, 0x01] {
        fail("SELECT answered another template", &answer[..told.count]);
    }
    answer[FREE_SLOTS_AT]
}

fn has_free_slots(both: &mut Both, random: &mut Random, card: &Card, wanted: usize) {
    let told = free_slots(both, random, card);
    if usize::from(told) != wanted {
        fail(&format!("SELECT told {told} free slots instead of {wanted}"), &card.uid);
    }
}

/// PAIR's answer on this card, which changes: its status word, and its first byte on success.
fn pair(both: &mut Both, random: &mut Random, card: &mut Card, p1: u8) -> (Option<u16>, u8) {
    let data = if p1 == 0x01 { card.expected } else { array(random) };
    let command = Request::new(Name::Pair, p1, &data).plain();
    let supply = supply_for(random, card, &command, &[0; 32], Way::Right);
    let mut answer = room(random, ANSWER_ROOM_BYTES);
    let answered = both.answer(card, &command, &supply, &mut answer);
    (answered.status, answer[0])
}

/// Both steps of a pairing: it fills the slot with this index, with the hash of pairing secret and salt, and no other.
fn pairs_into(both: &mut Both, random: &mut Random, card: &mut Card, wanted: usize) {
    let before = card.slots;
    let first = pair(both, random, card, 0x00);
    let salt = random.bytes(32);
    let command = Request::new(Name::Pair, 0x01, &card.expected).plain();
    let asked = both.ask(card, &command, &mut room(random, ASK_ROOM_BYTES));
    let mut answer = room(random, ANSWER_ROOM_BYTES);
    let last = both.answer(card, &command, &salt, &mut answer);
    let is_paired = first.0 == Some(SUCCESS) && asked.kind == FOR_PAIR_FINAL && last.status == Some(SUCCESS);
    let mut slots = before;
    slots[wanted] = Slot {
        filled: YES,
        key: sha256(&[&card.pairing_secret, &salt[..]].concat()),
    };
    if !is_paired || usize::from(answer[0]) != wanted || card.slots != slots {
        fail(&format!("PAIR gave {last:x?} instead of the slot {wanted}"), &answer);
    }
}

/// A card from INIT on: eight pairings, in order, and no ninth; the free slots go from 8 down to 0. Then the slots are freed in any order,
/// and two of them filled again, the first free one first.
fn full_and_empty(both: &mut Both, random: &mut Random) {
    let mut card = both.fresh(array(random), array(random));
    let init_key = array(random);
    let init = right(random, &card, Name::Init, &init_key).plain();
    let supply = [&[YES], &init_key[..]].concat();
    both.answer(&mut card, &init, &supply, &mut room(random, ANSWER_ROOM_BYTES));
    for index in 0..8 {
        has_free_slots(both, random, &card, 8 - index);
        pairs_into(both, random, &mut card, index);
    }
    has_free_slots(both, random, &card, 0);
    let full = card;
    for p1 in [0x00, 0x01] {
        let status = if p1 == 0x00 { NO_SPACE } else { WRONG_P1_P2 };
        if pair(both, random, &mut card, p1).0 != Some(status) || card != full {
            fail("a ninth pairing", &[p1]);
        }
    }
    let mut left: Vec<u8> = (0..8).collect();
    (card.stage, card.session, card.verified) = (AUTHENTICATED, random_session(random), YES);
    while !left.is_empty() {
        let index = left.swap_remove(random.below(left.len()));
        let (opened, next) = sealed(both, random, &card, &Request::new(Name::Unpair, index, &[]));
        if opened != SUCCESS.to_be_bytes() {
            fail(&format!("UNPAIR of {index}"), &opened);
        }
        card = next;
        has_free_slots(both, random, &card, 8 - left.len());
    }
    let mut holes = full;
    for index in [6, 2] {
        holes.slots[index] = Slot::FREE;
    }
    has_free_slots(both, random, &holes, 2);
    pairs_into(both, random, &mut holes, 2);
    pairs_into(both, random, &mut holes, 6);
    has_free_slots(both, random, &holes, 0);
}
