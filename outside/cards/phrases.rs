//! Word numbers of recovery phrases, by the card: GENERATE MNEMONIC with every P1, with data and supplies of every length, on cards that have
//! the channel alone, and what it leaves of the card; published entropies; and that it and ENTROPY undo each other. What is wanted is told
//! here and in `word_numbers.rs`, apart from the model. Lengths are in bytes where no other unit is said.

use crate::both::{hex, Both};
use crate::directed::ready_card;
use crate::entropies::reads;
use crate::host::room;
use crate::may_occur::Situation;
use crate::requests::Request;
use crate::sending::{only_iv_moved, sealed, send};
use crate::taps::without_key;
use crate::word_numbers::*;
use outside::model::card::*;
use outside::model::commands::{Name, FOR_MNEMONIC};
use outside::model::engine::{ANSWER_ROOM_BYTES, ASK_ROOM_BYTES, ENTROPY_ROOM_BYTES, NO_FAULT};
use outside::model::message::MAX_DATA_BYTES;
use outside::model::status::*;
use outside::random::choice::{byte, pick};
use outside::random::Random;

/// Supplies are tried with every length up to this one.
const MOST_SUPPLY_BYTES: usize = 130;
/// How many entropies of each length go through both.
const ENTROPIES: usize = 200;

/// A vector of BIP 39 whose entropy is one byte repeated: its numbers come again after eight, but for the last one of 12, 18 and 24.
struct Published {
    byte: u8,
    again: [u16; 8],
    last: [u16; 3],
}

const PUBLISHED_COUNTS: [usize; 3] = [12, 18, 24];
const PUBLISHED: [Published; 4] = [
    Published {
        byte: 0x00,
        again: [0; 8],
        last: [3, 39, 102],
    },
    Published {
        byte: 0x7f,
        again: [1019, 2015, 1790, 2039, 1983, 1533, 2031, 1919],
        last: [2040, 2009, 1815],
    },
    Published {
        byte: 0x80,
        again: [1028, 32, 257, 8, 64, 514, 16, 128],
        last: [4, 60, 189],
    },
    Published {
        byte: 0xff,
        again: [2047; 8],
        last: [2037, 2001, 1967],
    },
];

pub fn run(both: &mut Both, seed: u64) {
    both.walk = "the phrases".to_string();
    let mut random = Random::new(seed.rotate_left(29));
    let random = &mut random;
    published(both, random);
    parameters(both, random);
    data(both, random);
    supplies(both, random);
    conditions(both, random);
    situations(both, random);
    for p1 in EVERY_CHECKSUM_BITS {
        undone(both, random, p1);
    }
}

fn require(holds: bool, what: &str, bytes: &[u8]) {
    if !holds {
        println!("THE PHRASES: {what}: {}", hex(bytes));
        std::process::exit(1);
    }
}

fn channel_card(random: &mut Random) -> Card {
    ready_card(random, Situation::Authenticated)
}

fn request(p1: u8) -> Request {
    Request::new(Name::Mnemonic, p1, &[])
}

/// ASK has to tell this kind, and writes nothing.
fn asks(both: &mut Both, random: &mut Random, card: &Card, request: &Request, kind: u8) {
    let before = room(random, ASK_ROOM_BYTES);
    let mut after = before.clone();
    let asked = both.ask(card, &sealed(card, request), &mut after);
    let is_right = (asked.refusal, asked.kind, asked.count) == (NOT_REFUSED, kind, 0);
    let what = format!("ASK gave {asked:?} instead of kind {kind} and no bytes, or wrote some");
    require(is_right && after == before, &what, &request.plain());
}

/// The opened answer has to be this one, and the card has no other change than the channel's IV.
fn gives(both: &mut Both, random: &mut Random, card: &Card, request: &Request, supply: &[u8], opened: &[u8]) {
    let got = send(both, random, card, request, supply);
    let what = format!("{:x?} and {} instead of {}", got.answered, hex(&got.opened), hex(opened));
    require(got.opened == opened, &what, &request.plain());
    require(
        only_iv_moved(card, &got.next),
        "the card has another change than its IV",
        &request.plain(),
    );
    require(got.answered.fault_offset == NO_FAULT, "a fault offset", &request.plain());
}

/// A success: the numbers of this entropy.
fn makes(both: &mut Both, random: &mut Random, card: &Card, p1: u8, entropy: &[u8]) {
    let request = request(p1);
    asks(both, random, card, &request, FOR_MNEMONIC);
    gives(
        both,
        random,
        card,
        &request,
        entropy,
        &[&words_of(entropy)[..], &[0x90, 0x00]].concat(),
    );
}

/// A status word, before any supply is read: ASK tells none, and the supply may have any length.
fn ends_with(both: &mut Both, random: &mut Random, card: &Card, request: &Request, status: u16) {
    asks(both, random, card, request, 0);
    let right = random_entropy(random, request.header[2] % 32);
    for supply in [&right[..], &[]] {
        gives(both, random, card, request, supply, &status.to_be_bytes());
    }
}

/// The published numbers, both ways.
fn published(both: &mut Both, random: &mut Random) {
    for Published { byte, again, last } in PUBLISHED {
        for (count, last) in PUBLISHED_COUNTS.into_iter().zip(last) {
            let p1 = (count / 3) as u8;
            let mut numbers: Vec<u16> = again.into_iter().cycle().take(count).collect();
            numbers[count - 1] = last;
            let (entropy, words) = (vec![byte; entropy_bytes_of_p1(p1)], bytes_of(&numbers));
            require(words_of(&entropy) == words, "not the published numbers", &words);
            let card = channel_card(random);
            makes(both, random, &card, p1, &entropy);
            reads(both, random, &words, ENTROPY_ROOM_BYTES, Ok(entropy));
        }
    }
}

/// Every P1 with P2 00, 01 and FF: 6A86 but for 4 to 8 with 00, also with data, which are looked at later.
fn parameters(both: &mut Both, random: &mut Random) {
    for (p1, p2) in (0..=0xff).flat_map(|p1| [0x00, 0x01, 0xff].map(|p2| (p1, p2))) {
        let card = channel_card(random);
        if (4..=8).contains(&p1) && p2 == 0x00 {
            let entropy = random_entropy(random, p1);
            makes(both, random, &card, p1, &entropy);
            continue;
        }
        let data_bytes = pick(random, &[1, MAX_DATA_BYTES]);
        for data in [vec![], random.bytes(data_bytes)] {
            let mut request = Request::new(Name::Mnemonic, p1, &data);
            request.header[3] = p2;
            ends_with(both, random, &card, &request, WRONG_P1_P2);
        }
    }
}

/// Opened data of each length: none alone is right, and all else is 6A80, before the supply.
fn data(both: &mut Both, random: &mut Random) {
    for (p1, data_bytes) in EVERY_CHECKSUM_BITS
        .iter()
        .flat_map(|&p1| (0..=MAX_DATA_BYTES).map(move |bytes| (p1, bytes)))
    {
        let card = channel_card(random);
        if data_bytes == 0 {
            let entropy = random_entropy(random, p1);
            makes(both, random, &card, p1, &entropy);
        } else {
            let request = Request::new(Name::Mnemonic, p1, &random.bytes(data_bytes));
            ends_with(both, random, &card, &request, WRONG_DATA);
        }
    }
}

/// Supplies of each length: any but 4 times P1 is refused, and the card stays. No first byte is a flag.
fn supplies(both: &mut Both, random: &mut Random) {
    for p1 in EVERY_CHECKSUM_BITS {
        let wanted_bytes = 4 * usize::from(p1);
        for bytes in (0..=MOST_SUPPLY_BYTES).filter(|&bytes| bytes != wanted_bytes) {
            let card = channel_card(random);
            let supply = random.bytes(bytes);
            asks(both, random, &card, &request(p1), FOR_MNEMONIC);
            let got = send(both, random, &card, &request(p1), &supply);
            let is_right = got.answered.told.refusal == WRONG_SUPPLY && got.next == card && got.answered.fault_offset == NO_FAULT;
            let what = format!("P1 {p1} with a supply of {bytes} bytes gave {:x?}", got.answered);
            require(is_right, &what, &supply);
        }
        for first in [0x00, 0x01, 0x02, 0xff] {
            let card = channel_card(random);
            let mut supply = random.bytes(wanted_bytes);
            supply[0] = first;
            makes(both, random, &card, p1, &supply);
        }
    }
}

/// Nothing is needed but the channel: no verified PIN, no tries, no key, no path, no slot and no tap record.
fn conditions(both: &mut Both, random: &mut Random) {
    for (p1, pin_tries, key_kind) in EVERY_CHECKSUM_BITS
        .iter()
        .flat_map(|&p1| (0..=PIN_TRIES).flat_map(move |tries| [NO_KEY, SINGLE_KEY, EXTENDED_KEY].map(|kind| (p1, tries, kind))))
    {
        let mut card = channel_card(random);
        (card.verified, card.pin_tries) = (NO, pin_tries);
        card.puk_tries = random.below(usize::from(PUK_TRIES) + 1) as u8;
        match key_kind {
            NO_KEY => without_key(&mut card),
            SINGLE_KEY => (card.key_kind, card.current_path) = (SINGLE_KEY, Path::EMPTY),
            _ => {}
        }
        if random.below(2) == 0 {
            (card.slots, card.tap) = ([Slot::FREE; SLOTS], TapRecord::NONE);
        }
        let entropy = random_entropy(random, p1);
        makes(both, random, &card, p1, &entropy);
    }
}

/// Before INIT plain 6D00; outside stage 2 plain 6985; in stage 2 without sealed data, or forged, plain 6982. The channel is lost then, and a
/// pending pairing, and nothing else.
fn situations(both: &mut Both, random: &mut Random) {
    for (situation, word) in [
        (Situation::PreInitialised, UNKNOWN_INSTRUCTION),
        (Situation::Closed, CONDITIONS_NOT_SATISFIED),
        (Situation::Pending, CONDITIONS_NOT_SATISFIED),
        (Situation::Opened, CONDITIONS_NOT_SATISFIED),
        (Situation::Authenticated, SECURITY_NOT_SATISFIED),
    ] {
        for p1 in [0x00, 0x03, 0x04, 0x05, 0x06, 0x07, 0x08, 0x09, 0xff] {
            let card = ready_card(random, situation);
            let request = request(p1);
            let sealed = sealed(&card, &request);
            let mut forged = sealed.clone();
            forged[5 + random.below(sealed.len() - 5)] ^= 1 << random.below(8);
            let bare = [&request.header[..], &[byte(random)]].concat();
            let unsealed = [&request.header[..], &[0x20], &random.bytes(0x20)].concat();
            let mut commands = vec![request.header.to_vec(), bare, unsealed, forged];
            if situation != Situation::Authenticated {
                commands.push(sealed);
            }
            let mut wanted = card;
            wanted.power_up();
            for command in commands {
                let asked = both.ask(&card, &command, &mut room(random, ASK_ROOM_BYTES));
                let mut next = card;
                let mut response = room(random, ANSWER_ROOM_BYTES);
                let supply = random_entropy(random, p1 % 32);
                let answered = both.answer(&mut next, &command, &supply, &mut response);
                let is_right = asked.kind == 0 && response[..answered.told.count] == word.to_be_bytes() && next == wanted;
                let what = format!("{answered:x?} instead of plain {word:x} in {situation:?}, or another card");
                require(is_right, &what, &command);
            }
        }
    }
}

/// The card's numbers of random entropy go back to it, and these numbers are made of it again, over one channel that goes on.
fn undone(both: &mut Both, random: &mut Random, p1: u8) {
    let mut card = channel_card(random);
    for _ in 0..ENTROPIES {
        let entropy = match random.below(4) {
            0 => vec![pick(random, &[0x00, 0xff, 0x01, 0x80]); entropy_bytes_of_p1(p1)],
            _ => random_entropy(random, p1),
        };
        let got = send(both, random, &card, &request(p1), &entropy);
        let words = got.opened.strip_suffix(&[0x90, 0x00]).unwrap_or(&[]).to_vec();
        require(words.len() == 6 * usize::from(p1), "the answer's length", &got.opened);
        let mut buffer = room(random, ENTROPY_ROOM_BYTES);
        let told = both.entropy(&words, &mut buffer);
        let is_back = told.refusal == NOT_REFUSED && buffer[..told.count] == entropy;
        require(is_back, "ENTROPY does not undo GENERATE MNEMONIC", &words);
        let again = send(both, random, &got.next, &request(p1), &buffer[..told.count]);
        require(again.opened == got.opened, "GENERATE MNEMONIC does not undo ENTROPY", &words);
        card = again.next;
    }
}
