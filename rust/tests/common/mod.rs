//! A card with its terminal and its host, for the tests. Lengths are in bytes. INIT's data are enciphered by the plain AES of outside/, and what
//! a client hashes is hashed by the plain SHA-256 of outside/, so that the tests need neither the feature `sha256` nor the engine's own hash.

#![allow(dead_code)]

#[path = "../../../outside/ciphers/plain.rs"]
pub mod plain;
#[path = "../../../outside/hashes/plain.rs"]
pub mod plain_hash;

use plain::Aes;
use treadlewisp::*;

pub const UID: [u8; UID_BYTES] = [0x11; UID_BYTES];
pub const POINT: [u8; PUBLIC_KEY_BYTES] = [0x04; PUBLIC_KEY_BYTES];
pub const PIN: &[u8; PIN_BYTES] = b"024680";
pub const WRONG_PIN: &[u8; PIN_BYTES] = b"024681";
pub const PUK: &[u8; PUK_BYTES] = b"918273645546";
pub const PAIRING_SECRET: [u8; KEY_BYTES] = [0x51; KEY_BYTES];
pub const ENC_KEY: [u8; KEY_BYTES] = [0x61; KEY_BYTES];
pub const MAC_KEY: [u8; KEY_BYTES] = [0x62; KEY_BYTES];
pub const SEED_IV: [u8; IV_BYTES] = [0x63; IV_BYTES];
pub const PRIVATE_KEY: [u8; KEY_BYTES] = [0x72; KEY_BYTES];
const INIT_KEY: [u8; KEY_BYTES] = [0x81; KEY_BYTES];
const INIT_IV: [u8; IV_BYTES] = [0x82; IV_BYTES];
/// The salt, of PAIR and of OPEN.
pub const SALT: [u8; KEY_BYTES] = [0x91; KEY_BYTES];
const RANDOM: [u8; KEY_BYTES] = [0x92; KEY_BYTES];
/// PAIR's challenges, the client's and the card's.
pub const CLIENT_CHALLENGE: [u8; KEY_BYTES] = [0x0F; KEY_BYTES];
pub const CARD_CHALLENGE: [u8; KEY_BYTES] = [0x93; KEY_BYTES];

/// What GENERATE MNEMONIC's supply begins with, as many bytes as P1 asks for.
pub const ENTROPY: [u8; ENTROPY_MAX_BYTES] = [
    0x9E, 0x01, 0x7C, 0xB3, 0x25, 0xD8, 0x4F, 0x60, 0xEA, 0x11, 0x93, 0x36, 0xC7, 0x58, 0x0D, 0xF2, 0x84, 0x2B, 0xA9, 0x6E, 0x17, 0xDC,
    0x73, 0x40, 0xB5, 0x0A, 0xE8, 0x3F, 0x92, 0x65, 0xCD, 0x1A,
];

/// What fills a buffer before a call.
pub const FILL: u8 = 0xA5;

/// SHA-256 of the parts, joined.
pub fn hashed(parts: &[&[u8]]) -> [u8; KEY_BYTES] {
    plain_hash::sha256(&parts.concat())
}

/// What a client makes of the pairing secret: its cryptogram, the card's, and the pairing key.
pub fn client_cryptogram() -> [u8; KEY_BYTES] {
    hashed(&[&PAIRING_SECRET, &CARD_CHALLENGE])
}

pub fn card_cryptogram() -> [u8; KEY_BYTES] {
    hashed(&[&PAIRING_SECRET, &CLIENT_CHALLENGE])
}

pub fn pairing_key() -> [u8; KEY_BYTES] {
    hashed(&[&PAIRING_SECRET, &SALT])
}

/// The UID of the key that LOAD's supply names.
pub fn key_uid() -> [u8; KEY_BYTES] {
    hashed(&[&POINT])
}

/// Bits as digits, the high one first.
pub fn bits(bytes: &[u8]) -> String {
    bytes.iter().map(|byte| format!("{byte:08b}")).collect()
}

/// The numbers of the words of this entropy (BIP 39): its bits and those of its checksum, cut into pieces of 11.
pub fn word_numbers(entropy: &[u8]) -> Vec<u16> {
    let all = bits(entropy) + &bits(&hashed(&[entropy]))[..entropy.len() / ENTROPY_BYTES_PER_CHECKSUM_BIT];
    assert_eq!(all.len() % 11, 0);
    let number = |at: usize| u16::from_str_radix(&all[at..at + 11], 2).expect("binary digits");
    (0..all.len()).step_by(11).map(number).collect()
}

/// Numbers in 2 bytes each, the high byte first.
pub fn in_bytes(numbers: &[u16]) -> Vec<u8> {
    numbers.iter().flat_map(|number| number.to_be_bytes()).collect()
}

/// Where a field of this name lies in a card's bytes.
pub fn place(name: &str) -> std::ops::Range<usize> {
    let field = Card::FIELDS.iter().find(|field| field.name == name).expect(name);
    field.offset..field.offset + field.bytes
}

/// A command without sealing: header, Lc and data; the header alone where there are no data.
pub fn plain_command(header: [u8; HEADER_BYTES], data: &[u8]) -> Vec<u8> {
    let mut command = header.to_vec();
    if !data.is_empty() {
        command.push(u8::try_from(data.len()).expect("at most 255 bytes of data"));
        command.extend_from_slice(data);
    }
    command
}

pub fn card_header(instruction: u8, p1: u8) -> [u8; HEADER_BYTES] {
    [command::CLASS_CARD, instruction, p1, 0x00]
}

pub fn select_command() -> Vec<u8> {
    let header = [command::CLASS_SELECT, command::SELECT, command::P1_SELECT, 0x00];
    plain_command(header, command::APPLICATION_ID)
}

/// INIT: 41, a point, the IV and 64 bytes of ciphertext of PIN, PUK and pairing secret.
pub fn init_command() -> Vec<u8> {
    let mut content = [&PIN[..], PUK, &PAIRING_SECRET, &[0x80]].concat();
    content.resize(64, 0);
    Aes::new().cbc_encrypt(&INIT_KEY, &INIT_IV, &mut content);
    let data = [&[0x41], &POINT[..], &INIT_IV, &content].concat();
    plain_command(card_header(command::INIT, 0x00), &data)
}

/// A right supply of this kind; that of GENERATE MNEMONIC is for 12 words.
pub fn supply(kind: SupplyKind) -> Vec<u8> {
    supply_for(kind, command::P1_MNEMONIC_12_WORDS)
}

/// A right supply of this kind, for a command with this P1.
pub fn supply_for(kind: SupplyKind, p1: u8) -> Vec<u8> {
    let yes: &[u8] = &[0x01];
    let parts: Vec<&[u8]> = match kind {
        SupplyKind::None => vec![],
        SupplyKind::Init => vec![yes, &INIT_KEY],
        SupplyKind::Open => vec![yes, &ENC_KEY, &MAC_KEY, &SALT, &SEED_IV],
        SupplyKind::Mutual => vec![&RANDOM],
        SupplyKind::PairFirst => vec![&CARD_CHALLENGE],
        SupplyKind::PairFinal => vec![&SALT],
        SupplyKind::Load => vec![yes, &POINT],
        SupplyKind::Derive => vec![yes],
        SupplyKind::Sign => vec![&POINT, &[0; 31], &[0x80], &[0; 31], &[0x01]],
        SupplyKind::Export => vec![yes, &POINT, &PRIVATE_KEY],
        SupplyKind::Mnemonic => vec![&ENTROPY[..kind.bytes(p1)]],
        other => panic!("no supply of {other} is known here"),
    };
    parts.concat()
}

/// A field of no bytes in templates, one inside the other, so many deep.
pub fn nested(depth: u8) -> Vec<u8> {
    let templates = (0..depth).rev().flat_map(|inner| [0xA1, 2 * inner + 2]);
    templates.chain([0x80, 0x00]).collect()
}

/// A response that holds this plaintext, sealed by the plain AES with the session of [`Life::fresh`]. Lr counts the ciphertext and so many
/// bytes more: those of the MAC, or none, as in version 0.1.0.
pub fn sealed_response(plaintext: &[u8], lr_more_bytes: usize) -> Vec<u8> {
    let aes = Aes::new();
    let mut ciphertext = [plaintext, &[0x80]].concat();
    ciphertext.resize(ciphertext.len().next_multiple_of(16), 0);
    aes.cbc_encrypt(&ENC_KEY, &SEED_IV, &mut ciphertext);
    let mut head = [0; 16];
    head[0] = u8::try_from(ciphertext.len() + lr_more_bytes).expect("Lr has one byte");
    let mac = aes.cbc_mac(&MAC_KEY, &[&head[..], &ciphertext].concat());
    [&mac[..], &ciphertext, &[0x90, 0x00]].concat()
}

/// A card, and the terminal's end of its channel.
#[derive(Clone)]
pub struct Life {
    pub card: Card,
    pub terminal: Session,
}

impl Life {
    pub fn fresh() -> Life {
        Life {
            card: Card::fresh(&UID, &POINT),
            terminal: Session::new(&ENC_KEY, &MAC_KEY, &SEED_IV),
        }
    }

    /// A card after INIT.
    pub fn initialised() -> Life {
        let mut life = Life::fresh();
        assert_eq!(life.plain(&init_command()), [0x90, 0x00]);
        life
    }

    /// A card that is paired, with the channel mutually authenticated.
    pub fn in_channel() -> Life {
        let mut life = Life::initialised();
        life.pair();
        life.open();
        life.mutual();
        life
    }

    /// ASK and ANSWER with the supply that ASK names; gives the response. Bytes past the counts stay.
    pub fn plain(&mut self, command: &[u8]) -> Vec<u8> {
        let mut opened = [FILL; ASK_ROOM_BYTES];
        let asked = self.card.ask(command, &mut opened).expect("ASK");
        assert!(opened[asked.count..].iter().all(|&b| b == FILL));
        let mut response = vec![FILL; ANSWER_ROOM_BYTES];
        let supply = supply_for(asked.kind, command.get(2).copied().unwrap_or(0x00));
        let count = self.card.answer(command, &supply, &mut response).expect("ANSWER").count;
        assert!(response[count..].iter().all(|&b| b == FILL));
        assert!(self.card.is_sound());
        response.truncate(count);
        response
    }

    /// SEAL, ASK, ANSWER, UNSEAL; gives the response's plaintext.
    pub fn sealed(&mut self, instruction: u8, p1: u8, data: &[u8]) -> Vec<u8> {
        self.sealed_with_header(card_header(instruction, p1), data)
    }

    /// As [`Life::sealed`], with a whole header.
    pub fn sealed_with_header(&mut self, header: [u8; HEADER_BYTES], data: &[u8]) -> Vec<u8> {
        let command = self.seal_with_header(header, data);
        let response = self.plain(&command);
        let mut opened = vec![FILL; UNSEAL_ROOM_BYTES];
        let count = self.terminal.unseal(&response, &mut opened).expect("UNSEAL");
        assert!(opened[count..].iter().all(|&b| b == FILL));
        opened.truncate(count);
        opened
    }

    /// As [`Life::sealed`], where only a status word is answered.
    pub fn sealed_status(&mut self, instruction: u8, p1: u8, data: &[u8]) -> StatusWord {
        let opened = self.sealed(instruction, p1, data);
        assert_eq!(opened.len(), STATUS_BYTES);
        StatusWord::of(&opened).expect("two bytes")
    }

    pub fn seal(&mut self, instruction: u8, p1: u8, data: &[u8]) -> Vec<u8> {
        self.seal_with_header(card_header(instruction, p1), data)
    }

    pub fn seal_with_header(&mut self, header: [u8; HEADER_BYTES], data: &[u8]) -> Vec<u8> {
        let mut command = vec![FILL; SEAL_ROOM_BYTES];
        let count = self.terminal.seal(&header, data, &mut command).expect("SEAL");
        assert!(command[count..].iter().all(|&b| b == FILL));
        command.truncate(count);
        command
    }

    /// PAIR, both steps; the first answers cryptogram and challenge, the final one the slot and the salt.
    pub fn pair(&mut self) -> u8 {
        let first = plain_command(card_header(command::PAIR, command::P1_PAIR_FIRST), &CLIENT_CHALLENGE);
        assert_eq!(
            self.plain(&first),
            [&card_cryptogram()[..], &CARD_CHALLENGE, &[0x90, 0x00]].concat()
        );
        assert!(self.card.is_pairing_pending());
        let last = plain_command(card_header(command::PAIR, command::P1_PAIR_FINAL), &client_cryptogram());
        let response = self.plain(&last);
        assert_eq!(response[1..], [&SALT[..], &[0x90, 0x00]].concat());
        assert!(!self.card.is_pairing_pending());
        response[0]
    }

    pub fn open(&mut self) {
        let open = plain_command(card_header(command::OPEN, 0), &POINT);
        assert_eq!(self.plain(&open), [&SALT[..], &SEED_IV, &[0x90, 0x00]].concat());
        assert_eq!(self.card.stage(), Some(Stage::Opened));
        self.terminal = Session::new(&ENC_KEY, &MAC_KEY, &SEED_IV);
    }

    pub fn mutual(&mut self) {
        let opened = self.sealed(command::MUTUAL, 0x00, &[0x0E; KEY_BYTES]);
        assert_eq!(opened, [&RANDOM[..], &[0x90, 0x00]].concat());
        assert_eq!(self.card.stage(), Some(Stage::Mutual));
    }
}
