//! Sweeps through all of a kind: each broken rule of soundness, each byte of a card, each cut, byte and field of a record, each room of a
//! buffer, each length of a message, and all short templates of some bytes. Lengths are in bytes.

use crate::both::{hex, Both};
use crate::directed::{filled, ready_card};
use crate::may_occur::{Room, Situation, EVERY_ROOM, EVERY_SITUATION};
use crate::records::{moved_fields, record_in, renewed, RecordForm, EVERY_RECORD_FORM, WRITTEN};
use crate::states::{break_rule, random_session, tap_data, RULES};
use crate::terminal::with_old_lr;
use crate::word_numbers::random_words;
use outside::ffi::treadlewisp::{card_bytes, card_of, session_bytes, CARD_BYTES};
use outside::model::card::{Card, Path, TapRecord, KEY_UID_BYTES, NO_KEY, PATH_BYTES, TAP_BYTES, YES};
use outside::model::engine::*;
use outside::model::message::{seal_response, MAX_DATA_BYTES};
use outside::model::record::record_of;
use outside::model::status::*;
use outside::random::choice::array;
use outside::random::Random;

/// Tags and lengths that templates are made of.
const TEMPLATE_BYTES: [u8; 8] = [0x00, 0x01, 0x02, 0x20, 0x7f, 0x80, 0x81, 0xa1];
const MOST_TEMPLATE_BYTES: usize = 4;
/// Bytes at the edge of what a field of a record may hold.
const EDGES: [u8; 8] = [0x00, 0x01, 0x02, 0x05, 0x06, b'0', b'9' + 1, 0xff];
/// How many sessions see a response with the old Lr at each length.
const OLD_LR_SESSIONS: usize = 4;
/// A factory's tap record, an empty message of 3 bytes.
const FACTORY: [u8; 5] = [0x00, 0x03, 0xd0, 0x00, 0x00];
const SELECT: &[u8] = b"\x00\xa4\x04\x00\x0fStatusWalletApp";

pub fn run(both: &mut Both, seed: u64) {
    both.walk = "the sweeps".to_string();
    let mut random = Random::new(seed.rotate_left(31));
    let random = &mut random;
    for rule in 0..RULES {
        broken_rule(both, random, rule);
    }
    for situation in EVERY_SITUATION {
        bytes_of_a_card(both, random, situation);
        rooms_of_a_card(both, random, situation);
    }
    for card in cards_to_store(random) {
        let forms = EVERY_RECORD_FORM.into_iter();
        for form in forms.filter(|&form| card.initialised == YES || form == WRITTEN) {
            records(both, random, &card, form);
        }
    }
    messages(both, random);
    for _ in 0..OLD_LR_SESSIONS {
        old_responses(both, random);
    }
    rooms_of_a_session(both, random);
    rooms_of_words(both, random);
    long_inputs(both, random);
    templates(both, &mut Vec::new());
}

/// Cards with this rule broken, in every situation but the first. Some stay sound, not all; an unsound one is refused by all.
fn broken_rule(both: &mut Both, random: &mut Random, rule: usize) {
    let mut unsound = 0;
    for situation in EVERY_SITUATION[1..].repeat(3) {
        let mut card = ready_card(random, situation);
        break_rule(random, &mut card, rule);
        if both.sound(&card) {
            continue;
        }
        unsound += 1;
        both.reset(&mut card.clone());
        for bytes in [0, WRITE_ROOM_BYTES] {
            both.ask(&card, SELECT, &mut random.bytes(bytes));
            both.write(&card, &mut random.bytes(bytes));
            both.answer(&mut card, SELECT, &[], &mut random.bytes(bytes));
        }
    }
    if unsound == 0 {
        println!("THE SWEEP found no unsound card with rule {rule} broken");
        std::process::exit(1);
    }
}

/// One bit changed in each byte.
fn bytes_of_a_card(both: &mut Both, random: &mut Random, situation: Situation) {
    let bytes = card_bytes(&ready_card(random, situation));
    for at in 0..CARD_BYTES {
        let mut changed = bytes.clone();
        changed[at] ^= 1 << random.below(8);
        let mut card = card_of(&changed);
        both.sound(&card);
        both.reset(&mut card);
    }
}

/// A buffer of this kind for an operation that takes so many bytes.
fn room_bytes(random: &mut Random, room: Room, least_bytes: usize) -> usize {
    match room {
        Room::Empty => 0,
        Room::Under => 1 + random.below(least_bytes - 2),
        Room::OneUnder => least_bytes - 1,
        Room::Least => least_bytes,
        Room::Over => least_bytes + 1 + random.below(100),
    }
}

fn buffer(random: &mut Random, room: Room, least_bytes: usize) -> Vec<u8> {
    let bytes = room_bytes(random, room, least_bytes);
    random.bytes(bytes)
}

fn rooms_of_a_card(both: &mut Both, random: &mut Random, situation: Situation) {
    for room in EVERY_ROOM {
        let mut card = ready_card(random, situation);
        for command in [SELECT, &[], &[0x80, 0xf2, 0x00, 0x00]] {
            both.ask(&card, command, &mut buffer(random, room, ASK_ROOM_BYTES));
            both.answer(&mut card.clone(), command, &[], &mut buffer(random, room, ANSWER_ROOM_BYTES));
        }
        both.write(&card, &mut buffer(random, room, WRITE_ROOM_BYTES));
        card.initialised = 2;
        both.write(&card, &mut buffer(random, room, WRITE_ROOM_BYTES));
    }
}

/// SEAL with and without too much data, UNSEAL of a genuine response and of none.
fn rooms_of_a_session(both: &mut Both, random: &mut Random) {
    for room in EVERY_ROOM {
        for data_bytes in [0, MAX_DATA_BYTES, MAX_DATA_BYTES + 1] {
            let mut session = random_session(random);
            let data = random.bytes(data_bytes);
            both.seal(&mut session, array(random), &data, &mut buffer(random, room, SEAL_ROOM_BYTES));
            let response = [&seal_response(&mut session.clone(), &data)[..], &[0x90, 0x00]].concat();
            both.unseal(&mut session.clone(), &response, &mut buffer(random, room, UNSEAL_ROOM_BYTES));
            both.unseal(&mut session, &response[1..], &mut buffer(random, room, UNSEAL_ROOM_BYTES));
        }
    }
}

/// ENTROPY of right words and of words that are wrong in each way, a wrong checksum, a number and the count.
fn rooms_of_words(both: &mut Both, random: &mut Random) {
    for room in EVERY_ROOM {
        let words = random_words(random);
        let mut other = words.clone();
        other[1] ^= 0x01;
        let mut large = other.clone();
        large[0] |= 0x08;
        for words in [&words, &other, &large, &large[1..]] {
            both.entropy(words, &mut buffer(random, room, ENTROPY_ROOM_BYTES));
        }
    }
}

/// A card before INIT, one with an extended key, the longest paths and tap record and all slots filled, and one with no key, a PIN-less path,
/// no tap record and one slot filled.
fn cards_to_store(random: &mut Random) -> [Card; 3] {
    let fresh = ready_card(random, Situation::PreInitialised);
    let mut longest = ready_card(random, Situation::Authenticated);
    longest.current_path = Path::of(&random.bytes(PATH_BYTES));
    longest.pinless_path = Path::of(&random.bytes(PATH_BYTES));
    longest.tap = TapRecord::of(&tap_data(random, TAP_BYTES));
    longest.slots = longest.slots.map(|_| filled(random));
    let mut keyless = ready_card(random, Situation::Closed);
    (keyless.key_kind, keyless.key_uid) = (NO_KEY, [0; KEY_UID_BYTES]);
    keyless.current_path = Path::of(&[]);
    keyless.tap = TapRecord::NONE;
    [fresh, longest, keyless]
}

/// A card's record in this form, cut at each length, with each byte replaced, with bytes after it, and with its fields moved about. Cut before
/// field 34 it is a record of another form. Bytes at the edge are tried in the form that is written.
fn records(both: &mut Both, random: &mut Random, card: &Card, form: RecordForm) {
    let record = &record_in(form, card)[..];
    let untapped = record_in(RecordForm { tapped: false, ..form }, card);
    let edges: &[u8] = if form == WRITTEN { &EDGES } else { &[] };
    let mut is_right = is_taken(both, random, record);
    for at in 0..record.len() {
        is_right &= is_taken(both, random, &record[..at]) == (record[..at] == untapped);
        let flipped = record[at] ^ 1 << random.below(8);
        for byte in edges.iter().copied().chain([flipped]) {
            let mut replaced = record.to_vec();
            replaced[at] = byte;
            is_taken(both, random, &replaced);
        }
    }
    for after in [0x00, 0x34] {
        for more_bytes in 1..=16 {
            is_right &= !is_taken(both, random, &[record, &vec![after; more_bytes]].concat());
        }
    }
    for moved in moved_fields(record) {
        is_right &= !is_taken(both, random, &moved);
    }
    if !is_right {
        println!("THE SWEEP of records took or refused one wrongly, near {}", hex(record));
        std::process::exit(1);
    }
}

/// Whether READ takes a record; the tap read refuses exactly what READ refuses, and WRITE of the card that it gives has to write it again, in
/// the form that is written.
fn is_taken(both: &mut Both, random: &mut Random, record: &[u8]) -> bool {
    let (refusal, card) = both.read(record);
    let tapped = both.tap(record, &FACTORY);
    if tapped.refusal != refusal {
        println!("THE SWEEP read with {refusal} and got {tapped:?} for the record {}", hex(record));
        std::process::exit(1);
    }
    if refusal != NOT_REFUSED {
        return false;
    }
    let mut buffer = random.bytes(WRITE_ROOM_BYTES);
    let told = both.write(&card, &mut buffer);
    if buffer[..told.count] != renewed(record) {
        println!("THE SWEEP read the record {} and wrote {}", hex(record), hex(&buffer[..told.count]));
        std::process::exit(1);
    }
    true
}

/// Data of each length, up to more than a message takes.
fn messages(both: &mut Both, random: &mut Random) {
    for data_bytes in 0..=MAX_DATA_BYTES + 2 {
        let mut session = random_session(random);
        let data = random.bytes(data_bytes);
        let told = both.seal(&mut session, array(random), &data, &mut random.bytes(SEAL_ROOM_BYTES));
        let is_long = data_bytes > MAX_DATA_BYTES;
        let field = seal_response(&mut session.clone(), &data);
        let response = [&field[..], &[0x90, 0x00]].concat();
        let opened = both.unseal(&mut session, &response, &mut random.bytes(UNSEAL_ROOM_BYTES));
        let is_genuine = data_bytes >= 2 && !is_long;
        if (told.refusal == LONG_DATA) != is_long || (opened.refusal == NOT_REFUSED) != is_genuine {
            println!("THE SWEEP of messages with {data_bytes} bytes gave {told:?} and {opened:?}");
            std::process::exit(1);
        }
    }
}

/// Responses with each length inside, their Lr the ciphertext's length alone: refused with 2 in a short buffer, else with 7. Session and
/// buffer stay, and in that session the same response with the right Lr opens, from 2 bytes inside on.
fn old_responses(both: &mut Both, random: &mut Random) {
    for data_bytes in 0..=MAX_DATA_BYTES {
        let mut session = random_session(random);
        let data = random.bytes(data_bytes);
        let response = [&seal_response(&mut session.clone(), &data)[..], &[0x90, 0x00]].concat();
        let old = with_old_lr(&session, &response);
        let before = session_bytes(&session);
        for room in EVERY_ROOM {
            let given = buffer(random, room, UNSEAL_ROOM_BYTES);
            let mut left = given.clone();
            let told = both.unseal(&mut session, &old, &mut left);
            let wanted = if given.len() < UNSEAL_ROOM_BYTES {
                SHORT_BUFFER
            } else {
                NOT_GENUINE
            };
            if told.refusal != wanted || left != given || session_bytes(&session) != before {
                println!("THE SWEEP of old responses with {data_bytes} bytes gave {told:?}, room {room:?}");
                std::process::exit(1);
            }
        }
        let mut opened = random.bytes(UNSEAL_ROOM_BYTES);
        let told = both.unseal(&mut session, &response, &mut opened);
        if data_bytes < 2 {
            continue;
        }
        if told.refusal != NOT_REFUSED || opened[..told.count] != data[..] {
            println!("THE SWEEP of old responses with {data_bytes} bytes gave {told:?} for the right Lr");
            std::process::exit(1);
        }
    }
}

/// Inputs whose lengths a count of one or two bytes would take for shorter ones.
fn long_inputs(both: &mut Both, random: &mut Random) {
    for more_bytes in [256, 512, 65_536] {
        let longer = |bytes: &[u8]| [bytes, &vec![0; more_bytes]].concat();
        let card = ready_card(random, Situation::Closed);
        let slot = card.slots.iter().position(|slot| slot.filled == YES).expect("a filled slot") as u8;
        let open = [&[0x80, 0x10, slot, 0x00, 65, 0x04][..], &random.bytes(64)].concat();
        let supply = [&[1], &random.bytes(112)[..]].concat();
        for command in [SELECT, &longer(SELECT), &longer(&[]), &open, &longer(&open)] {
            both.ask(&card, command, &mut random.bytes(ASK_ROOM_BYTES + more_bytes));
            for supply in [&supply, &longer(&supply)] {
                both.answer(
                    &mut card.clone(),
                    command,
                    supply,
                    &mut random.bytes(ANSWER_ROOM_BYTES + more_bytes),
                );
            }
        }
        both.read(&longer(&record_of(&card)));
        let mut session = random_session(random);
        both.seal(&mut session, array(random), &longer(&[]), &mut random.bytes(SEAL_ROOM_BYTES));
        let field = seal_response(&mut session.clone(), &random.bytes(20));
        let response = [&longer(&field)[..], &[0x90, 0x00]].concat();
        both.unseal(&mut session, &response, &mut random.bytes(UNSEAL_ROOM_BYTES));
        both.walk(&[0x80, 0x00].repeat(more_bytes + 1));
        both.walk(&longer(&[0x80]));
        let words = random_words(random);
        both.entropy(&longer(&words), &mut random.bytes(ENTROPY_ROOM_BYTES));
        both.entropy(&words, &mut random.bytes(ENTROPY_ROOM_BYTES + more_bytes));
        both.entropy(&words, &mut random.bytes(ENTROPY_ROOM_BYTES - 1));
    }
    let megabytes = vec![0; 4 << 20];
    both.walk(&megabytes);
    both.walk(&megabytes[1..]);
}

/// All inputs of the bytes above that begin with these, up to 4.
fn templates(both: &mut Both, start: &mut Vec<u8>) {
    both.walk(start);
    if start.len() < MOST_TEMPLATE_BYTES {
        for byte in TEMPLATE_BYTES {
            start.push(byte);
            templates(both, start);
            start.pop();
        }
    }
}
