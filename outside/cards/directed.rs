//! Directed calls: for each row of the tables a call that is made to meet it, so that a run covers them whatever its seed is. Lengths are in
//! bytes.

use crate::both::{hex, Both};
use crate::host::{room, supplied_as, supply_for, Way};
use crate::may_occur::*;
use crate::requests::{is_sealed_kind, right, Request};
use crate::states::{random_session, sound_card};
use crate::tally::{every_row, Row};
use outside::ciphers::plain::BLOCK_BYTES;
use outside::model::card::*;
use outside::model::commands::{supply_of_kind, Name, FOR_PAIR_FINAL, FOR_PAIR_FIRST};
use outside::model::engine::*;
use outside::model::message::HEADER_BYTES;
use outside::model::status::*;
use outside::random::choice::{array, byte, chance, pick, some_bytes};
use outside::random::Random;

/// P1 that no command lists.
const UNLISTED_P1: [u8; 3] = [SLOTS as u8 + 1, 0x80, 0xff];

/// A sound card in this situation that has all that a command can need: in stage 2 a verified PIN, an extended key on the PIN-less path,
/// a filled slot and free ones. It may have a tap record, or none.
pub fn ready_card(random: &mut Random, situation: Situation) -> Card {
    if situation == Situation::PreInitialised {
        return Card::fresh(array(random), array(random));
    }
    let mut card = sound_card(random);
    card.power_up();
    (card.pin_tries, card.puk_tries) = (PIN_TRIES, PUK_TRIES);
    card.slots = [Slot::FREE; SLOTS];
    card.slots[random.below(SLOTS)] = filled(random);
    (card.key_kind, card.key_uid) = (EXTENDED_KEY, array(random));
    let components = 1 + random.below(PATH_BYTES / COMPONENT_BYTES);
    card.current_path = Path::of(&random.bytes(components * COMPONENT_BYTES));
    card.pinless_path = card.current_path;
    match situation {
        Situation::PreInitialised | Situation::Closed => {}
        Situation::Pending => (card.pending, card.expected) = (YES, array(random)),
        Situation::Opened => (card.stage, card.session) = (OPENED, random_session(random)),
        Situation::Authenticated => (card.stage, card.session, card.verified) = (AUTHENTICATED, random_session(random), YES),
    }
    card
}

pub fn filled(random: &mut Random) -> Slot {
    Slot {
        filled: YES,
        key: array(random),
    }
}

/// A call for one row: the card that gets the command, and the supply.
pub struct Trial {
    pub card: Card,
    pub command: Vec<u8>,
    pub supply: Vec<u8>,
}

pub fn run(both: &mut Both, seed: u64) {
    both.walk = "the directed calls".to_string();
    let mut random = Random::new(seed.rotate_left(17));
    for row in every_row() {
        meet(both, &mut random, row);
    }
    forms(both, &mut random);
    supplies(both, &mut random);
}

/// ASK, ANSWER and, where the answer is sealed, UNSEAL; the answer has to be that of the row.
fn meet(both: &mut Both, random: &mut Random, row: Row) {
    let (_, _, status, sealed) = row;
    let Trial { mut card, command, supply } = trial(both, random, row);
    let mut session = card.session;
    both.ask(&card, &command, &mut room(random, ASK_ROOM_BYTES));
    let mut buffer = room(random, ANSWER_ROOM_BYTES);
    let answered = both.answer(&mut card, &command, &supply, &mut buffer);
    if (answered.status, answered.sealed) != (Some(status), sealed) {
        println!("THE DIRECTED CALL for {row:x?} gave {answered:x?}: {}", hex(&command));
        std::process::exit(1);
    }
    if sealed {
        session.iv.copy_from_slice(&command[HEADER_BYTES + 1..][..BLOCK_BYTES]);
        both.unseal(&mut session, &buffer[..answered.told.count], &mut room(random, UNSEAL_ROOM_BYTES));
    }
}

pub fn trial(both: &mut Both, random: &mut Random, (name, situation, status, sealed): Row) -> Trial {
    let mut card = ready_card(random, situation);
    let init_key = array(random);
    let mut command = match name {
        None => no_command(random, status),
        Some(name) => {
            prepare(random, &mut card, name, status, sealed);
            let mut request = right(random, &card, name, &init_key);
            spoil(random, &card, &mut request, status);
            as_sent(both, random, &card, &request)
        }
    };
    if status == WRONG_LENGTH {
        command = misformed(random, &command);
    }
    let forged = status == SECURITY_NOT_SATISFIED && name.is_some_and(is_sealed_kind);
    if forged {
        let at = HEADER_BYTES + 1 + random.below(command.len() - HEADER_BYTES - 1);
        command[at] ^= 1 << random.below(8);
    }
    let way = if status == DATA_INVALID { Way::Refusing } else { Way::Right };
    let supply = supply_for(random, &card, &command, &init_key, way);
    Trial { card, command, supply }
}

/// A command that is none: its class or its instruction is unknown.
fn no_command(random: &mut Random, status: u16) -> Vec<u8> {
    let (class, instruction) = match status {
        UNKNOWN_CLASS => (pick(random, &[0x00, 0x84, 0xff]), pick(random, &[0x10, 0xf2, 0xfe])),
        _ => (0x80, pick(random, &[0xa4, 0xf4, 0xd4, 0xd5, 0xc3])),
    };
    vec![class, instruction, byte(random), byte(random)]
}

/// The card as the row needs it.
fn prepare(random: &mut Random, card: &mut Card, name: Name, status: u16, sealed: bool) {
    let blocked = name == Name::Unblock && status != CONDITIONS_NOT_SATISFIED;
    if blocked && card.initialised == YES {
        (card.verified, card.pin_tries) = (NO, 0);
    }
    match (status, name) {
        (NO_SPACE, _) => card.slots = [(); SLOTS].map(|()| filled(random)),
        (CONDITIONS_NOT_SATISFIED, name) if sealed && name != Name::Unblock => {
            card.verified = NO;
            card.pinless_path = Path::EMPTY;
        }
        (WRONG_ENTRY.., Name::Verify) if is_tries(status) => {
            card.verified = NO;
            card.pin_tries = tries_before(random, status);
        }
        (_, Name::Unblock) if is_tries(status) => card.puk_tries = tries_before(random, status),
        _ => {}
    }
}

fn is_tries(status: u16) -> bool {
    (WRONG_ENTRY..WRONG_ENTRY + PUK_TRIES as u16).contains(&status)
}

/// The tries before an answer that tells these; none before none left, half of the time.
fn tries_before(random: &mut Random, status: u16) -> u8 {
    let left = (status - WRONG_ENTRY) as u8;
    if left == 0 && chance(random, 50) {
        0
    } else {
        left + 1
    }
}

/// A right request becomes one that gets this status word.
fn spoil(random: &mut Random, card: &Card, request: &mut Request, status: u16) {
    match status {
        WRONG_P1_P2 if chance(random, 50) => request.header[2] = pick(random, &UNLISTED_P1),
        WRONG_P1_P2 if request.name == Name::Export => request.header[3] = 2 + random.below(254) as u8,
        WRONG_P1_P2 => request.header[3] = 1 + random.below(255) as u8,
        WRONG_DATA if request.name == Name::SetNdef => request.data = vec![0x00, 0x02, byte(random)],
        WRONG_DATA => request.data = random.bytes(3),
        NOT_FOUND => request.data[random.below(15)] ^= 1 << random.below(8),
        SECURITY_NOT_SATISFIED if request.name == Name::Pair => {
            request.header[2] = 0x01;
            request.data = card.expected.to_vec();
            request.data[random.below(CRYPTOGRAM_BYTES)] ^= 1 << random.below(8);
        }
        _ if is_tries(status) => request.data[random.below(PIN_BYTES)] ^= 1,
        _ => {}
    }
}

/// Sealed for this card's session where it has one and the command comes sealed.
fn as_sent(both: &mut Both, random: &mut Random, card: &Card, request: &Request) -> Vec<u8> {
    if card.stage == CLOSED || !is_sealed_kind(request.name) {
        return request.plain();
    }
    let mut buffer = room(random, SEAL_ROOM_BYTES);
    let told = both.seal(&mut card.session.clone(), request.header, &request.data, &mut buffer);
    buffer.truncate(told.count);
    buffer
}

/// A command of wrong form with the same first two bytes.
fn misformed(random: &mut Random, command: &[u8]) -> Vec<u8> {
    let form = pick(random, &[Form::Short(2), Form::Short(3), Form::LcZero, Form::LcWrong]);
    formed(random, [command[0], command[1]], form)
}

/// A command of this form that begins with these two bytes, as far as it has them.
fn formed(random: &mut Random, start: [u8; 2], form: Form) -> Vec<u8> {
    let header = [start[0], start[1], 0x00, 0x00];
    let data = some_bytes(random, 1, 40);
    let lc = data.len() as u8;
    match form {
        Form::Short(bytes) => header[..bytes].to_vec(),
        Form::Header => header.to_vec(),
        Form::HeaderLe => [&header[..], &[byte(random)]].concat(),
        Form::Data => [&header[..], &[lc], &data].concat(),
        Form::DataLe => [&header[..], &[lc], &data, &[byte(random)]].concat(),
        Form::LcZero => [&header[..], &[0], &data].concat(),
        Form::LcWrong if chance(random, 50) => [&header[..], &[lc + 1], &data].concat(),
        Form::LcWrong => [&header[..], &[lc], &data, &[0; 2]].concat(),
    }
}

/// Every form in every situation, after the first two bytes that step 1 asks about and after others.
fn forms(both: &mut Both, random: &mut Random) {
    let starts = [[0x80, 0x11], [0x80, 0x12], [0x00, 0x11], [0x80, 0x10], [0x00, 0xa4], [0x84, 0x12]];
    for situation in EVERY_SITUATION {
        for (form, start) in EVERY_FORM.iter().flat_map(|form| starts.map(|start| (*form, start))) {
            let mut card = ready_card(random, situation);
            let command = formed(random, start, form);
            both.ask(&card, &command, &mut room(random, ASK_ROOM_BYTES));
            let init_key = array(random);
            let supply = supply_for(random, &card, &command, &init_key, Way::Right);
            both.answer(&mut card, &command, &supply, &mut room(random, ANSWER_ROOM_BYTES));
        }
    }
}

/// Every way of every supply, in every situation of the card.
fn supplies(both: &mut Both, random: &mut Random) {
    for situation in EVERY_SITUATION {
        for kind in kinds(situation).iter().copied().filter(|&kind| kind != 0) {
            for way in every_supplied(kind) {
                supply(both, random, situation, kind, way);
            }
        }
    }
}

fn supply(both: &mut Both, random: &mut Random, situation: Situation, kind: u8, way: Supplied) {
    let mut card = ready_card(random, situation);
    let init_key = array(random);
    let mut request = right(random, &card, reader(kind), &init_key);
    match kind {
        FOR_PAIR_FIRST => (request.header[2], request.data) = (0x00, random.bytes(CRYPTOGRAM_BYTES)),
        FOR_PAIR_FINAL => (request.header[2], request.data) = (0x01, card.expected.to_vec()),
        _ => {}
    }
    let command = as_sent(both, random, &card, &request);
    let wanted = supply_of_kind(kind, request.header[2]);
    let supply = supplied_as(random, &wanted, &init_key, way);
    let asked = both.ask(&card, &command, &mut room(random, ASK_ROOM_BYTES));
    let answered = both.answer(&mut card, &command, &supply, &mut room(random, ANSWER_ROOM_BYTES));
    let is_right = matches!(way, Supplied::Right | Supplied::No);
    let wanted = if is_right { NOT_REFUSED } else { WRONG_SUPPLY };
    if asked.kind != kind || answered.told.refusal != wanted {
        let got = format!("{asked:?} and {answered:x?}");
        println!("THE DIRECTED SUPPLY {way:?} of kind {kind} got {got}: {}", hex(&command));
        std::process::exit(1);
    }
}
