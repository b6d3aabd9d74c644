//! The tap record: what SET NDEF takes and leaves, each cause to refuse and which one comes first, and what keeps a tap record. What is wanted
//! is told here, apart from the model. Lengths are in bytes.

use crate::both::{hex, Both};
use crate::directed::ready_card;
use crate::host::{room, supply_for, Way};
use crate::may_occur::Situation;
use crate::requests::{is_sealed_kind, right, Request};
use crate::states::{random_tap_data, sound_card, tap_data};
use crate::tap_fields::{gives_factory, written};
use outside::ciphers::plain::BLOCK_BYTES;
use outside::model::card::*;
use outside::model::commands::{Name, INSTRUCTIONS};
use outside::model::engine::*;
use outside::model::message::{pad, seal_command, HEADER_BYTES, MAX_DATA_BYTES};
use outside::model::status::*;
use outside::random::choice::{array, byte, pick, some_bytes};
use outside::random::Random;

pub fn run(both: &mut Both, seed: u64) {
    both.walk = "the tap records".to_string();
    let mut random = Random::new(seed.rotate_left(43));
    let random = &mut random;
    set(both, random);
    counts(both, random);
    parameters(both, random);
    conditions(both, random);
    situations(both, random);
    kept(both, random);
}

pub fn fail(what: &str, bytes: &[u8]) -> ! {
    println!("THE TAP RECORD: {what}: {}", hex(bytes));
    std::process::exit(1);
}

fn verified_card(random: &mut Random) -> Card {
    ready_card(random, Situation::Authenticated)
}

/// SET NDEF with this P1, P2 and data on this card: ASK has to tell that no supply is read, and ANSWER to say this word and nothing else,
/// sealed, whatever it is supplied with. The card may have no other change than the channel's IV and the tap record.
fn set_ndef(both: &mut Both, random: &mut Random, card: &Card, request: &Request, status: u16, tap: &TapRecord) {
    let command = seal_command(&mut card.session.clone(), request.header, &request.data);
    let asked = both.ask(card, &command, &mut room(random, ASK_ROOM_BYTES));
    if (asked.refusal, asked.kind, asked.count) != (NOT_REFUSED, 0, 0) {
        fail(&format!("ASK gave {asked:?}"), &request.plain());
    }
    let mut next = *card;
    let mut response = room(random, ANSWER_ROOM_BYTES);
    let answered = both.answer(&mut next, &command, &some_bytes(random, 0, 140), &mut response);
    let mut session = card.session;
    session.iv.copy_from_slice(&command[HEADER_BYTES + 1..][..BLOCK_BYTES]);
    let mut opened = room(random, UNSEAL_ROOM_BYTES);
    let told = both.unseal(&mut session, &response[..answered.told.count], &mut opened);
    if told.refusal != NOT_REFUSED || opened[..told.count] != status.to_be_bytes() {
        let got = hex(&opened[..told.count]);
        fail(&format!("{got} with {told:?} instead of {status:x}"), &request.plain());
    }
    let mut wanted = *card;
    (wanted.session, wanted.tap) = (session, *tap);
    if next != wanted || next.session.iv == card.session.iv {
        fail("the card changed in another way than it should", &request.plain());
    }
}

fn request(data: &[u8]) -> Request {
    Request::new(Name::SetNdef, 0x00, data)
}

/// A tap record is set in place of another one, or of none: 9000, and the card has just these bytes.
fn is_set(both: &mut Both, random: &mut Random, card: &Card, data: &[u8]) {
    let mut tap = TapRecord::NONE;
    tap.used_bytes = data.len() as u8;
    tap.bytes[..data.len()].copy_from_slice(data);
    set_ndef(both, random, card, &request(data), SUCCESS, &tap);
}

/// 6A80, and the tap record stays.
fn is_refused(both: &mut Both, random: &mut Random, card: &Card, data: &[u8]) {
    set_ndef(both, random, card, &request(data), WRONG_DATA, &card.tap);
}

/// Right data of each length, on cards with and without a key, after none, after a longer one and after a shorter one.
fn set(both: &mut Both, random: &mut Random) {
    for bytes in 2..=MAX_DATA_BYTES {
        let mut card = verified_card(random);
        match random.below(3) {
            0 => (card.key_kind, card.current_path) = (SINGLE_KEY, Path::EMPTY),
            1 => without_key(&mut card),
            _ => {}
        }
        for before in [
            TapRecord::NONE,
            TapRecord::of(&tap_data(random, TAP_BYTES)),
            TapRecord::of(&[0x00, 0x00]),
        ] {
            card.tap = before;
            let data = tap_data(random, bytes);
            is_set(both, random, &card, &data);
        }
    }
}

pub fn without_key(card: &mut Card) {
    (card.key_kind, card.key_uid) = (NO_KEY, [0; KEY_UID_BYTES]);
    (card.current_path, card.pinless_path) = (Path::EMPTY, Path::EMPTY);
}

/// Data of each length whose first two bytes tell another number: theirs counted too, Lc, the padded length, one more and one less, the low
/// byte first, a high byte that is not zero, and each other low byte. No data and one byte of any value are wrong too.
fn counts(both: &mut Both, random: &mut Random) {
    let card = verified_card(random);
    is_refused(both, random, &card, &[]);
    for first in 0..=0xff {
        is_refused(both, random, &card, &[first]);
    }
    for bytes in 2..=MAX_DATA_BYTES {
        let right = bytes - 2;
        let padded_bytes = pad(&vec![0; bytes]).len();
        let low_first = right << 8;
        let wrong = [
            bytes,
            bytes - 1,
            right.wrapping_sub(1),
            padded_bytes,
            padded_bytes + BLOCK_BYTES,
            low_first,
            right + 0x100,
        ];
        for told in wrong.into_iter().filter(|&told| told != right) {
            let mut data = tap_data(random, bytes);
            data[..2].copy_from_slice(&(told as u16).to_be_bytes());
            is_refused(both, random, &card, &data);
        }
    }
    for low in 0..=0xff {
        let data = [0x00, low, 0x11, 0x22, 0x33];
        match low {
            3 => is_set(both, random, &card, &data),
            _ => is_refused(both, random, &card, &data),
        }
    }
}

/// Every other P1, every other P2: 6A86, before a PIN that is not verified and before wrong data.
fn parameters(both: &mut Both, random: &mut Random) {
    let others = (1..=0xff).flat_map(|other| [(other, 0x00), (0x00, other), (other, other)]);
    for (p1, p2) in others {
        let mut card = verified_card(random);
        card.verified = pick(random, &[NO, YES]);
        let mut request = request(&random_tap_data(random));
        (request.header[2], request.header[3]) = (p1, p2);
        if random.below(2) == 0 {
            request.data = random.bytes(1);
        }
        set_ndef(both, random, &card, &request, WRONG_P1_P2, &card.tap);
    }
}

/// Without a verified PIN: 6985, whatever the data, the tries, the key and the PIN-less path are.
fn conditions(both: &mut Both, random: &mut Random) {
    for tries in 0..=PIN_TRIES {
        for data in [vec![], vec![0x00], vec![0x00, 0x00], vec![0x00, 0x02], random_tap_data(random)] {
            let mut card = verified_card(random);
            (card.verified, card.pin_tries) = (NO, tries);
            set_ndef(both, random, &card, &request(&data), CONDITIONS_NOT_SATISFIED, &card.tap);
        }
    }
}

/// Before INIT plain 6D00; outside stage 2 plain 6985; in stage 2 without a data field, or forged, plain 6982. The tap record stays.
fn situations(both: &mut Both, random: &mut Random) {
    for situation in [
        Situation::PreInitialised,
        Situation::Closed,
        Situation::Pending,
        Situation::Opened,
        Situation::Authenticated,
    ] {
        let card = ready_card(random, situation);
        let request = request(&random_tap_data(random));
        let sealed = seal_command(&mut card.session.clone(), request.header, &request.data);
        let mut forged = sealed.clone();
        let last = forged.len() - 1;
        forged[last] ^= 1 << random.below(8);
        let bare = [&request.header[..], &[byte(random)]].concat();
        let word = match situation {
            Situation::PreInitialised => UNKNOWN_INSTRUCTION,
            Situation::Authenticated => SECURITY_NOT_SATISFIED,
            _ => CONDITIONS_NOT_SATISFIED,
        };
        let mut commands = vec![request.header.to_vec(), bare, request.plain(), forged];
        if situation != Situation::Authenticated {
            commands.push(sealed);
        }
        for command in commands {
            let mut next = card;
            let mut response = room(random, ANSWER_ROOM_BYTES);
            let answered = both.answer(&mut next, &command, &[], &mut response);
            let is_plain = response[..answered.told.count] == word.to_be_bytes();
            if !is_plain || answered.sealed || next.stage != CLOSED || next.tap != card.tap {
                fail(&format!("{answered:x?} instead of plain {word:x} in {situation:?}"), &command);
            }
        }
    }
}

/// What keeps a tap record, of the least, a middle and the greatest length: every other command, right or not, with the channel or without
/// it; RESET; WRITE and READ. INIT starts with none.
fn kept(both: &mut Both, random: &mut Random) {
    for bytes in [2, 40, TAP_BYTES] {
        for name in INSTRUCTIONS.map(|known| known.0).into_iter().filter(|&name| name != Name::SetNdef) {
            for situation in [Situation::Closed, Situation::Pending, Situation::Opened, Situation::Authenticated] {
                let mut card = ready_card(random, situation);
                if name == Name::Unblock {
                    (card.verified, card.pin_tries) = (NO, 0);
                }
                card.tap = TapRecord::of(&tap_data(random, bytes));
                keeps(both, random, &card, name);
            }
        }
    }
    let mut random_cards = [(); 20].map(|()| sound_card(random));
    for card in &mut random_cards {
        let tap = card.tap;
        both.reset(card);
        if card.tap != tap {
            fail("RESET changed it", tap.used());
        }
    }
    let mut fresh = both.fresh(array(random), array(random));
    let init_key = array(random);
    let init = right(random, &fresh, Name::Init, &init_key);
    let supply = [&[YES], &init_key[..]].concat();
    both.answer(&mut fresh, &init.plain(), &supply, &mut room(random, ANSWER_ROOM_BYTES));
    if fresh.initialised != YES || fresh.tap != TapRecord::NONE {
        fail("INIT did not start with none", fresh.tap.used());
    }
    let record = written(both, random, &fresh);
    gives_factory(both, random, &record);
}

/// A right command, and one that does not open or has other data, leave the tap record as it is.
fn keeps(both: &mut Both, random: &mut Random, card: &Card, name: Name) {
    let request = right(random, card, name, &[0; 32]);
    let command = match is_sealed_kind(name) && card.stage != CLOSED {
        true => seal_command(&mut card.session.clone(), request.header, &request.data),
        false => request.plain(),
    };
    let mut other = command.clone();
    let last = other.len() - 1;
    other[last] ^= 1 << random.below(8);
    for command in [command, other] {
        let mut next = *card;
        let supply = supply_for(random, card, &command, &[0; 32], Way::Right);
        both.answer(&mut next, &command, &supply, &mut room(random, ANSWER_ROOM_BYTES));
        if next.tap != card.tap {
            fail(&format!("{name:?} changed it"), &command);
        }
        // A write and a read keep it too, wherever the card stands.
        let record = written(both, random, &next);
        let (refusal, read) = both.read(&record);
        if refusal != NOT_REFUSED || read.tap != card.tap {
            fail("WRITE and READ changed it", &record);
        }
    }
}
