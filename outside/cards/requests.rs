//! What a terminal sends before sealing: for each command a right request, as a well-behaved terminal makes it for the card as it is, and
//! a wrong one. Lengths are in bytes.

use crate::paths::place_of;
use crate::states::{random_path, random_tap_data, tap_data};
use crate::templates::{key_template, wrong_key_template};
use crate::word_numbers::EVERY_CHECKSUM_BITS;
use outside::ciphers::plain::{Block, Key, BLOCK_BYTES};
use outside::model::card::*;
use outside::model::commands::{Name, INSTRUCTIONS};
use outside::model::message::{encrypt, pad, HEADER_BYTES, MAX_DATA_BYTES};
use outside::random::choice::{array, byte, chance, damaged, digits, pick, some_bytes};
use outside::random::Random;

/// The most data that a plain command can carry.
const MAX_PLAIN_BYTES: usize = 255;

pub struct Request {
    pub name: Name,
    pub header: [u8; HEADER_BYTES],
    pub data: Vec<u8>,
}

impl Request {
    pub fn new(name: Name, p1: u8, data: &[u8]) -> Request {
        let class = if name == Name::Select { 0x00 } else { 0x80 };
        let known = INSTRUCTIONS
            .iter()
            .find(|known| known.0 == name)
            .expect("every command is in the table");
        Request {
            name,
            header: [class, known.1, p1, 0x00],
            data: data.to_vec(),
        }
    }

    /// Class, instruction, P1, P2 and the data after their length, if there are any; at most 255 of them.
    pub fn plain(&self) -> Vec<u8> {
        if self.data.is_empty() {
            return self.header.to_vec();
        }
        [&self.header[..], &[self.data.len() as u8], &self.data].concat()
    }
}

/// Sent sealed, in stage 2 or, for MUTUAL, from stage 1.
pub fn is_sealed_kind(name: Name) -> bool {
    !matches!(name, Name::Select | Name::Init | Name::Open | Name::Pair)
}

/// A right request; INIT's content is enciphered with this AES key.
pub fn right(random: &mut Random, card: &Card, name: Name, init_key: &Key) -> Request {
    let request = |p1, data: &[u8]| Request::new(name, p1, data);
    match name {
        Name::Select => request(0x04, b"StatusWalletApp"),
        Name::Init => {
            let content = init_content(random);
            request(0x00, &init_data(random, init_key, &content))
        }
        Name::Open => request(filled_slot(random, card), &point(random)),
        Name::Mutual | Name::Sign => request(0x00, &random.bytes(32)),
        Name::Pair => {
            let is_final = card.pending == YES && chance(random, 75);
            let data = if is_final { card.expected } else { array(random) };
            request(u8::from(is_final), &data)
        }
        Name::Unpair => request(random.below(SLOTS) as u8, &[]),
        Name::Status => request(random.below(2) as u8, &[]),
        Name::Verify => request(0x00, &card.pin),
        Name::Change => match random.below(3) {
            0 => request(0x00, &new_entry(random, &card.pin)),
            1 => request(0x01, &new_entry(random, &card.puk)),
            _ => request(0x02, &random.bytes(SECRET_BYTES)),
        },
        Name::Unblock => request(0x00, &[&card.puk[..], &new_entry(random, &card.pin)].concat()),
        Name::Load => match random.below(4) {
            0 => request(0x01, &key_template(random, false)),
            1 => request(0x02, &key_template(random, true)),
            _ => request(0x03, &random.bytes(64)),
        },
        Name::Derive => request(0x00, near_path(random, &card.pinless_path).used()),
        Name::SetPinlessPath => request(0x00, near_path(random, &card.current_path).used()),
        Name::Remove => request(0x00, &[]),
        Name::Export => right_export(random, card),
        Name::SetNdef => request(0x00, &random_tap_data(random)),
        Name::Mnemonic => request(pick(random, &EVERY_CHECKSUM_BITS), &[]),
    }
}

/// A key that may go out: with its private part only where that does.
fn right_export(random: &mut Random, card: &Card) -> Request {
    let p1 = random.below(3) as u8;
    let given = near_path(random, &card.current_path);
    let (path, data) = if p1 == 0x00 {
        (&card.current_path, &[][..])
    } else {
        (&given, given.used())
    };
    let public_only = !place_of(path.used()).is_inside() || chance(random, 40);
    let mut request = Request::new(Name::Export, p1, data);
    request.header[3] = u8::from(public_only);
    request
}

/// A new PIN or PUK: now and then the old one, which is as good as any.
fn new_entry<const N: usize>(random: &mut Random, old: &[u8; N]) -> [u8; N] {
    if chance(random, 20) {
        *old
    } else {
        digits(random)
    }
}

/// Often this path itself, so that the current and the PIN-less path come to be the same.
fn near_path(random: &mut Random, path: &Path) -> Path {
    if chance(random, 40) {
        *path
    } else {
        random_path(random)
    }
}

fn filled_slot(random: &mut Random, card: &Card) -> u8 {
    let start = random.below(SLOTS);
    let around = (start..SLOTS).chain(0..start);
    around.into_iter().find(|&index| card.slots[index].filled == YES).unwrap_or(start) as u8
}

pub fn point(random: &mut Random) -> Vec<u8> {
    let mut point = random.bytes(POINT_BYTES);
    point[0] = 0x04;
    point
}

fn init_content(random: &mut Random) -> Vec<u8> {
    let secret: [u8; SECRET_BYTES] = array(random);
    [&digits::<PIN_BYTES>(random)[..], &digits::<PUK_BYTES>(random), &secret].concat()
}

/// INIT's data: 41, a point, the IV, and the content padded and enciphered.
fn init_data(random: &mut Random, key: &Key, content: &[u8]) -> Vec<u8> {
    let iv: Block = array(random);
    let ciphertext = encrypt(key, &iv, &pad(content));
    [&[0x41], &point(random)[..], &iv, &ciphertext].concat()
}

/// A request that is wrong in one way, mostly: P1, P2, or the data.
pub fn wrong(random: &mut Random, card: &Card, name: Name, init_key: &Key) -> Request {
    let mut request = right(random, card, name, init_key);
    match random.below(8) {
        0 => request.header[2] = pick(random, &[0, 1, 2, 3, 4, 5, 6, 7, 8, 9, 0xff]),
        1 => request.header[3] = byte(random),
        _ if name == Name::Export && chance(random, 40) => request.header[3] ^= 1,
        2 => request.data = some_bytes(random, 0, 70),
        3 => request.data = damaged(random, &request.data),
        4 if chance(random, 30) => {
            let most_bytes = if is_sealed_kind(name) { MAX_DATA_BYTES } else { MAX_PLAIN_BYTES };
            request.data = some_bytes(random, most_bytes / 2, most_bytes + 1);
        }
        _ => request.data = wrong_data(random, card, &request, init_key),
    }
    request
}

/// Data that come close to right ones.
fn wrong_data(random: &mut Random, card: &Card, right: &Request, init_key: &Key) -> Vec<u8> {
    match right.name {
        Name::Init => wrong_init_data(random, init_key),
        Name::Verify => wrong_entry(random, &card.pin),
        Name::Unblock => wrong_unblock_data(random, card),
        Name::Load => {
            let extended = chance(random, 50);
            wrong_key_template(random, extended)
        }
        Name::Change => match random.below(3) {
            0 => wrong_entry(random, &card.pin),
            1 => wrong_entry(random, &card.puk),
            _ => some_bytes(random, 30, 35),
        },
        Name::Derive | Name::SetPinlessPath | Name::Export => {
            let bytes = pick(random, &[0, 1, 2, 3, 4, 38, 39, 40, 41, 44]);
            random.bytes(bytes)
        }
        Name::SetNdef => wrong_tap_data(random),
        _ => damaged(random, &right.data),
    }
}

/// A tap record whose two bytes count something else: themselves too, the field as it is sent, one more or less, or with the low byte first;
/// and one that is too short to have them.
fn wrong_tap_data(random: &mut Random) -> Vec<u8> {
    let bytes = TAP_COUNT_BYTES + random.below(TAP_BYTES - TAP_COUNT_BYTES + 1);
    let mut data = tap_data(random, bytes);
    let padded_bytes = pad(&data).len();
    let told = match random.below(6) {
        0 => bytes,
        1 => BLOCK_BYTES + padded_bytes,
        2 => bytes - 1,
        3 => bytes.wrapping_sub(3),
        4 => (bytes - TAP_COUNT_BYTES) << 8,
        _ => {
            data.truncate(random.below(TAP_COUNT_BYTES));
            return data;
        }
    };
    data[..TAP_COUNT_BYTES].copy_from_slice(&(told as u16).to_be_bytes());
    data
}

/// A wrong PIN or PUK: a digit or another byte changed, one cut off or added, none at all.
fn wrong_entry(random: &mut Random, entry: &[u8]) -> Vec<u8> {
    let mut wrong = entry.to_vec();
    let at = random.below(wrong.len());
    match random.below(6) {
        0 => wrong.truncate(wrong.len() - 1),
        1 => wrong.push(b'0'),
        2 => wrong.clear(),
        3 => wrong[at] = pick(random, &[b'0' - 1, b'9' + 1, 0, 0xb0]),
        _ => wrong[at] = b'0' + (wrong[at] - b'0' + 1 + random.below(9) as u8) % 10,
    }
    wrong
}

fn wrong_unblock_data(random: &mut Random, card: &Card) -> Vec<u8> {
    let mut puk = card.puk;
    let mut pin: [u8; PIN_BYTES] = digits(random);
    match random.below(5) {
        0 => pin[random.below(PIN_BYTES)] = pick(random, &[b'0' - 1, b'9' + 1, 0]),
        1 => puk[random.below(PUK_BYTES)] = byte(random),
        2 => return [&puk[..], &pin, b"0"].concat(),
        3 => return [&puk[..], &pin[1..]].concat(),
        _ => puk = digits(random),
    }
    [&puk[..], &pin].concat()
}

fn wrong_init_data(random: &mut Random, key: &Key) -> Vec<u8> {
    let mut content = init_content(random);
    let at = random.below(PIN_BYTES + PUK_BYTES);
    match random.below(7) {
        0 => content.truncate(49),
        1 => content.push(0),
        2 => content[at] = pick(random, &[b'0' - 1, b'9' + 1, 0]),
        3 => content.extend([0x80, 0]),
        4 => content.truncate(47),
        5 => return init_data_with_last_block(random, key, content),
        _ => {
            let mut data = init_data(random, key, &content);
            data[random.below(2)] ^= 1;
            return data;
        }
    }
    init_data(random, key, &content)
}

/// INIT's data whose padding is wrong.
fn init_data_with_last_block(random: &mut Random, key: &Key, mut content: Vec<u8>) -> Vec<u8> {
    content.extend(random.bytes(14));
    let iv: Block = array(random);
    [&[0x41], &point(random)[..], &iv, &encrypt(key, &iv, &content)].concat()
}
