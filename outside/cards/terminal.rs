//! The terminal of the walks: it chooses commands for the card as it is, seals them with SEAL and opens the answers with UNSEAL, and
//! from time to time sends what no terminal should. Lengths are in bytes.

use crate::both::Both;
use crate::host::{room, short_room};
use crate::requests::{is_sealed_kind, right, wrong, Request};
use crate::states::random_session;
use outside::ciphers::plain::{Key, BLOCK_BYTES};
use outside::model::card::*;
use outside::model::commands::{Name, INSTRUCTIONS};
use outside::model::engine::{SEAL_ROOM_BYTES, UNSEAL_ROOM_BYTES};
use outside::model::message::*;
use outside::model::status::NOT_REFUSED;
use outside::random::choice::{array, byte, chance, damaged, pick, some_bytes};
use outside::random::Random;

/// How often UNBLOCK on a blocked card is wrong, at least, so that every count of PUK tries occurs.
const BLOCKED_WRONG_PERCENT: usize = 60;

pub struct Terminal {
    pub session: Session,
    /// The session before the last command, to go back to where the answer is not genuine.
    before: Session,
    last_command: Vec<u8>,
    /// The AES key that the terminal and the host take for INIT.
    pub init_key: Key,
    wrong_percent: usize,
    damage_percent: usize,
}

impl Terminal {
    pub fn new(random: &mut Random, card: &Card) -> Terminal {
        Terminal {
            session: card.session,
            before: card.session,
            last_command: Vec::new(),
            init_key: array(random),
            wrong_percent: pick(random, &[0, 5, 15, 30, 60]),
            damage_percent: pick(random, &[0, 2, 5, 30]),
        }
    }

    /// The next command for this card.
    pub fn command(&mut self, both: &mut Both, random: &mut Random, card: &Card) -> Vec<u8> {
        self.before = self.session;
        let name = choose(random, card);
        let blocked_percent = if name == Name::Unblock && card.pin_tries == 0 {
            BLOCKED_WRONG_PERCENT
        } else {
            0
        };
        let request = if chance(random, self.wrong_percent.max(blocked_percent)) {
            wrong(random, card, name, &self.init_key)
        } else {
            right(random, card, name, &self.init_key)
        };
        let mut command = self.sealed_or_plain(both, random, card, &request);
        if command.len() > HEADER_BYTES && chance(random, 15) {
            command.push(byte(random));
        }
        if chance(random, self.damage_percent) {
            command = self.mischief(random, &command);
        }
        self.last_command.clone_from(&command);
        command
    }

    fn sealed_or_plain(&mut self, both: &mut Both, random: &mut Random, card: &Card, request: &Request) -> Vec<u8> {
        let seals = is_sealed_kind(request.name) && (card.stage != CLOSED || chance(random, 30));
        if !seals || chance(random, 1) {
            return request.plain();
        }
        if chance(random, 3) {
            return sealed_wrongly(random, &mut self.session, request);
        }
        self.seal(both, random, request.header, &request.data)
    }

    /// SEAL, after a try with too short a buffer now and then.
    fn seal(&mut self, both: &mut Both, random: &mut Random, header: [u8; HEADER_BYTES], data: &[u8]) -> Vec<u8> {
        if chance(random, 5) {
            let mut buffer = short_room(random, SEAL_ROOM_BYTES);
            both.seal(&mut self.session, header, data, &mut buffer);
        }
        let mut buffer = room(random, SEAL_ROOM_BYTES);
        let told = both.seal(&mut self.session, header, data, &mut buffer);
        buffer.truncate(told.count);
        buffer
    }

    /// UNSEAL of the card's response, after a try with damage or with the old Lr now and then; gives what it opens to. Where it is not genuine
    /// the terminal mostly goes back to the session that it had before the command.
    pub fn receive(&mut self, both: &mut Both, random: &mut Random, response: &[u8]) -> Vec<u8> {
        if response.len() >= MIN_FIELD_BYTES + 2 && response.len() % BLOCK_BYTES == 2 && chance(random, 5) {
            let response = with_old_lr(&self.session, response);
            let mut buffer = room(random, UNSEAL_ROOM_BYTES);
            both.unseal(&mut self.session, &response, &mut buffer);
        }
        if chance(random, 5) {
            let response = damaged(random, response);
            let mut buffer = room(random, UNSEAL_ROOM_BYTES);
            both.unseal(&mut self.session.clone(), &response, &mut buffer);
        }
        if chance(random, 5) {
            let mut buffer = short_room(random, UNSEAL_ROOM_BYTES);
            both.unseal(&mut self.session, response, &mut buffer);
        }
        let mut buffer = room(random, UNSEAL_ROOM_BYTES);
        let told = both.unseal(&mut self.session, response, &mut buffer);
        if told.refusal != NOT_REFUSED && chance(random, 90) {
            self.go_back();
        }
        buffer.truncate(told.count);
        buffer
    }

    /// The card answered plainly: where it opened a channel the terminal has its session too, else the one before the command.
    pub fn received_plain(&mut self, card: &Card) {
        if card.stage == OPENED {
            self.session = card.session;
        } else {
            self.go_back();
        }
    }

    /// The session is again what it was before the last command.
    pub fn go_back(&mut self) {
        self.session = self.before;
    }

    /// What is sent in place of a command.
    fn mischief(&mut self, random: &mut Random, command: &[u8]) -> Vec<u8> {
        match random.below(12) {
            0 => self.last_command.clone(),
            1 => some_bytes(random, 0, 12),
            2 => some_bytes(random, 0, 300),
            3 => command[..random.below(command.len().min(7) + 1)].to_vec(),
            4 => with_byte(command, 0, pick(random, &[0x00, 0x81, 0x84, 0xff])),
            5 => with_byte(command, 1, pick(random, &[0xa4, 0xf4, 0xd4, 0xd5, 0x00, 0x14, 0xc3])),
            6 => with_byte(command, 1, pick(random, &INSTRUCTIONS).1),
            7 => with_byte(command, 2 + random.below(2), byte(random)),
            8 => with_byte(command, HEADER_BYTES, pick(random, &[0, 1, 16, 32, 255])),
            9 => [command, &random.bytes(2)].concat(),
            _ => damaged(random, command),
        }
    }
}

fn with_byte(command: &[u8], at: usize, value: u8) -> Vec<u8> {
    let mut changed = command.to_vec();
    if let Some(b) = changed.get_mut(at) {
        *b = value;
    }
    changed
}

/// Which command comes next: mostly one that leads on from this state.
fn choose(random: &mut Random, card: &Card) -> Name {
    let any = pick(random, &INSTRUCTIONS).0;
    if card.initialised != YES {
        return pick(random, &[Name::Init, Name::Init, Name::Init, Name::Select, any]);
    }
    match card.stage {
        CLOSED if card.pending == YES => pick(random, &[Name::Pair, Name::Pair, Name::Pair, any]),
        CLOSED if card.free_slots() == SLOTS => pick(random, &[Name::Pair, Name::Pair, Name::Pair, any]),
        CLOSED => pick(random, &[Name::Open, Name::Open, Name::Open, Name::Open, Name::Pair, any]),
        OPENED if chance(random, 90) => Name::Mutual,
        AUTHENTICATED if chance(random, 90) => choose_sealed(random, card),
        _ => any,
    }
}

fn choose_sealed(random: &mut Random, card: &Card) -> Name {
    let sealed: Vec<Name> = INSTRUCTIONS
        .iter()
        .map(|known| known.0)
        .filter(|&name| is_sealed_kind(name))
        .collect();
    let any = pick(random, &sealed);
    match (card.verified, card.pin_tries, card.key_kind) {
        (YES, _, EXTENDED_KEY) => pick(random, &[Name::Derive, Name::SetPinlessPath, Name::Sign, Name::Export, any, any]),
        (YES, _, _) => pick(random, &[Name::Load, Name::SetNdef, Name::Mnemonic, any, any]),
        (_, 0, _) => pick(random, &[Name::Unblock, Name::Unblock, Name::Unblock, Name::Verify, any]),
        (_, _, EXTENDED_KEY) => pick(random, &[Name::Verify, Name::Derive, Name::Sign, any]),
        _ => pick(random, &[Name::Verify, any]),
    }
}

/// A sealed command that has the right MAC and a wrong padding or none, or is sealed with another session.
fn sealed_wrongly(random: &mut Random, session: &mut Session, request: &Request) -> Vec<u8> {
    if chance(random, 30) {
        return seal_command(&mut random_session(random), request.header, &request.data);
    }
    let text = wrong_padding(random, session);
    let ciphertext = encrypt(&session.enc_key, &session.iv, &text);
    let field_bytes = BLOCK_BYTES + ciphertext.len();
    let field = field_of(session, &command_head(request.header, field_bytes), &ciphertext);
    [&request.header[..], &[field_bytes as u8], &field].concat()
}

/// Whole blocks, at most 14 of them, mostly with a padding that is wrong; none at all now and then.
fn wrong_padding(random: &mut Random, session: &Session) -> Vec<u8> {
    let blocks = 1 + random.below(3);
    let mut text = random.bytes(blocks * BLOCK_BYTES);
    let end = text.len();
    match random.below(5) {
        0 => text.clear(),
        1 => text[end - BLOCK_BYTES..].fill(0),
        2 => text = [&pad(&text), &[0; BLOCK_BYTES][..]].concat(),
        3 => text[end - 1] = session.iv[0] | 1,
        _ => text = random.bytes(14 * BLOCK_BYTES),
    }
    text
}

/// A sealed response, its MAC made with the Lr of version 0.1.0: the ciphertext's length alone.
pub fn with_old_lr(session: &Session, response: &[u8]) -> Vec<u8> {
    let end = response.len() - 2;
    let ciphertext = &response[BLOCK_BYTES..end];
    let mut head = [0; BLOCK_BYTES];
    head[0] = ciphertext.len() as u8;
    [&mac(&session.mac_key, &head, ciphertext)[..], &response[BLOCK_BYTES..]].concat()
}

/// SEAL and UNSEAL on their own: data of any length and any header; responses with the right MAC and few bytes inside, a wrong padding, a
/// wrong end or a wrong length.
pub fn messages_alone(both: &mut Both, random: &mut Random) {
    let mut session = random_session(random);
    let bytes = match random.below(4) {
        0 => MAX_DATA_BYTES - 1 + random.below(4),
        1 => random.below(400),
        _ => random.below(MAX_DATA_BYTES + 1),
    };
    let data = random.bytes(bytes);
    let mut buffer = match random.below(5) {
        0 => short_room(random, SEAL_ROOM_BYTES),
        _ => room(random, SEAL_ROOM_BYTES),
    };
    both.seal(&mut session, array(random), &data, &mut buffer);
    let response = strange_response(random, session);
    let mut buffer = match random.below(5) {
        0 => short_room(random, UNSEAL_ROOM_BYTES),
        _ => room(random, UNSEAL_ROOM_BYTES),
    };
    both.unseal(&mut session, &response, &mut buffer);
}

fn strange_response(random: &mut Random, mut session: Session) -> Vec<u8> {
    let blocks = pick(random, &[0, 1, 2, 13, 14, 15, 16]);
    let text = match random.below(4) {
        0 => wrong_padding(random, &session),
        1 => random.bytes(blocks * BLOCK_BYTES),
        2 => pad(&some_bytes(random, 0, 5)),
        _ => pad(&some_bytes(random, 0, MAX_DATA_BYTES + 20)),
    };
    let ciphertext = encrypt(&session.enc_key, &session.iv, &text);
    let field = field_of(&mut session, &response_head(BLOCK_BYTES + ciphertext.len()), &ciphertext);
    let end: &[u8] = match random.below(8) {
        0 => &[],
        1 => &[0x90, 0x01],
        2 => &[0x69, 0x85],
        3 => &[0x90],
        _ => &[0x90, 0x00],
    };
    let response = [&field, end].concat();
    if chance(random, 20) {
        damaged(random, &response)
    } else {
        response
    }
}
