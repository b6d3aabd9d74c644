//! The order of checks for a command (RULES 5 and 6), and the commands that are plain in every stage: SELECT, INIT and OPEN here, PAIR in a
//! file of its own. A command changes the card that it is given; lengths are in bytes.

use super::card::*;
use super::cipher::{Block, Key, BLOCK_BYTES, KEY_BYTES};
use super::message::{decrypt, unpad, HEADER_BYTES};
use super::pairing::pair;
use super::phrase::ENTROPY_BYTES_PER_CHECKSUM_BIT;
use super::sealed_commands;
use super::status::*;
use super::template::field;

const APPLICATION_ID: &[u8] = b"StatusWalletApp";
const VERSION: [u8; 2] = [0x02, 0x00];
const POINT_START: u8 = 0x04;
const INIT_DATA_BYTES: usize = 146;
const INIT_CONTENT_BYTES: usize = PIN_BYTES + PUK_BYTES + SECRET_BYTES;
pub const SALT_BYTES: usize = 32;

#[derive(Clone, Copy, PartialEq, Eq, PartialOrd, Ord, Debug)]
pub enum Name {
    Select,
    Init,
    Open,
    Mutual,
    Pair,
    Unpair,
    Status,
    Verify,
    Change,
    Unblock,
    Load,
    Derive,
    Remove,
    SetPinlessPath,
    Sign,
    Export,
    SetNdef,
    Mnemonic,
}

/// The instruction byte of each command.
pub const INSTRUCTIONS: [(Name, u8); 18] = [
    (Name::Select, 0xa4),
    (Name::Init, 0xfe),
    (Name::Open, 0x10),
    (Name::Mutual, 0x11),
    (Name::Pair, 0x12),
    (Name::Unpair, 0x13),
    (Name::Status, 0xf2),
    (Name::Verify, 0x20),
    (Name::Change, 0x21),
    (Name::Unblock, 0x22),
    (Name::Load, 0xd0),
    (Name::Derive, 0xd1),
    (Name::Remove, 0xd3),
    (Name::SetPinlessPath, 0xc1),
    (Name::Sign, 0xc0),
    (Name::Export, 0xc2),
    (Name::SetNdef, 0xf3),
    (Name::Mnemonic, 0xd2),
];

/// A supply: its kind, how many bytes it has, and whether the first is a flag.
#[derive(Clone, Copy)]
pub struct Supply {
    pub kind: u8,
    pub bytes: usize,
    pub has_flag: bool,
}

const fn supply(kind: u8, bytes: usize, has_flag: bool) -> Supply {
    Supply { kind, bytes, has_flag }
}

/// The table of supplies, but for that of GENERATE MNEMONIC, whose length P1 tells.
static SUPPLIES: [Supply; 9] = [
    supply(FOR_INIT, 33, true),
    supply(FOR_OPEN, 113, true),
    supply(FOR_MUTUAL, 32, false),
    supply(FOR_PAIR_FIRST, 32, false),
    supply(FOR_PAIR_FINAL, 32, false),
    supply(FOR_LOAD, 66, true),
    supply(FOR_DERIVE, 1, true),
    supply(FOR_SIGN, 129, false),
    supply(FOR_EXPORT, 98, true),
];
pub const FOR_INIT: u8 = 1;
pub const FOR_OPEN: u8 = 2;
pub const FOR_MUTUAL: u8 = 3;
pub const FOR_PAIR_FIRST: u8 = 4;
pub const FOR_PAIR_FINAL: u8 = 5;
pub const FOR_LOAD: u8 = 6;
pub const FOR_DERIVE: u8 = 7;
pub const FOR_SIGN: u8 = 8;
pub const FOR_EXPORT: u8 = 9;
pub const FOR_MNEMONIC: u8 = 10;

/// The supply of this kind, for a command with this P1.
pub fn supply_of_kind(kind: u8, p1: u8) -> Supply {
    if kind == FOR_MNEMONIC {
        return supply(kind, ENTROPY_BYTES_PER_CHECKSUM_BIT * usize::from(p1), false);
    }
    *SUPPLIES.iter().find(|supply| supply.kind == kind).expect("a kind of the table")
}

/// A comparison that was made, and whether it came out right.
#[derive(Clone, Copy, PartialEq, Eq, PartialOrd, Ord, Debug)]
pub enum Comparison {
    Pin(bool),
    Puk(bool),
}

/// An answer: response data and status word, sealed or plain, the comparison that was made for it, and the offset of the faulty field where
/// LOAD's data are such as WALK refuses.
pub struct Reply {
    pub status: u16,
    pub data: Vec<u8>,
    pub sealed: bool,
    pub comparison: Option<Comparison>,
    pub fault_offset: Option<usize>,
}

/// What ends a command before its success: a status word, a fault that WALK finds in LOAD's data, ASK at the supply that ANSWER would read, or
/// ANSWER at a wrong one.
pub enum End {
    Status(u16),
    /// 6A80; the offset of the faulty field's tag in the opened data.
    FaultAt(usize),
    Wants {
        kind: u8,
        data: Vec<u8>,
    },
    WrongSupply,
}

pub type Outcome = Result<Reply, End>;

/// Who runs the command: ASK, or ANSWER with the host's supply.
pub enum Caller<'a> {
    Ask,
    Answer(&'a [u8]),
}

impl Caller<'_> {
    /// The supply of this kind, for a command with this opened data, where P1 has nothing to do with it.
    pub fn supply(&self, kind: u8, data: &[u8]) -> Result<&[u8], End> {
        self.read(supply_of_kind(kind, 0x00), data)
    }

    /// GENERATE MNEMONIC's supply, for this P1; it has no data.
    pub fn entropy(&self, p1: u8) -> Result<&[u8], End> {
        self.read(supply_of_kind(FOR_MNEMONIC, p1), &[])
    }

    fn read(&self, wanted: Supply, data: &[u8]) -> Result<&[u8], End> {
        match self {
            Caller::Ask => Err(End::Wants {
                kind: wanted.kind,
                data: data.to_vec(),
            }),
            Caller::Answer(given) if given.len() != wanted.bytes => Err(End::WrongSupply),
            Caller::Answer(given) if wanted.has_flag && given[0] > YES => Err(End::WrongSupply),
            Caller::Answer(given) => Ok(given),
        }
    }
}

impl Reply {
    pub fn success(data: Vec<u8>) -> Reply {
        Reply {
            status: SUCCESS,
            data,
            sealed: false,
            comparison: None,
            fault_offset: None,
        }
    }

    pub fn of_status(status: u16) -> Reply {
        Reply {
            status,
            ..Reply::success(Vec::new())
        }
    }
}

/// A check: the command goes on, or ends with this status word.
pub fn require(holds: bool, status: u16) -> Result<(), End> {
    if holds {
        Ok(())
    } else {
        Err(End::Status(status))
    }
}

/// An outcome whose status words are answers like any other.
pub fn settled(outcome: Outcome) -> Outcome {
    match outcome {
        Err(End::Status(status)) => Ok(Reply::of_status(status)),
        Err(End::FaultAt(offset)) => Ok(Reply {
            fault_offset: Some(offset),
            ..Reply::of_status(WRONG_DATA)
        }),
        other => other,
    }
}

/// A command of right form.
pub struct Apdu<'a> {
    pub header: [u8; HEADER_BYTES],
    pub data: &'a [u8],
}

impl Apdu<'_> {
    pub fn class(&self) -> u8 {
        self.header[0]
    }

    pub fn instruction(&self) -> u8 {
        self.header[1]
    }

    pub fn p1(&self) -> u8 {
        self.header[2]
    }

    pub fn p2(&self) -> u8 {
        self.header[3]
    }
}

/// A command on a sound card.
pub fn run(card: &mut Card, command: &[u8], caller: &Caller) -> Outcome {
    step_1(card, command);
    settled(steps_2_to_6(card, command, caller))
}

/// Step 1, by the first two bytes.
fn step_1(card: &mut Card, command: &[u8]) {
    if card.stage == OPENED && !command.starts_with(&[0x80, 0x11]) {
        card.close_channel();
    }
    if !command.starts_with(&[0x80, 0x12]) {
        card.forget_pending();
    }
}

fn steps_2_to_6(card: &mut Card, command: &[u8], caller: &Caller) -> Outcome {
    let apdu = form(command).ok_or(End::Status(WRONG_LENGTH))?;
    let name = name_of(card, &apdu)?;
    match name {
        Name::Select => select(card, &apdu),
        Name::Init => init(card, &apdu, caller),
        Name::Open => open(card, &apdu, caller),
        Name::Pair => pair(card, &apdu, caller),
        _ => sealed_commands::run(card, name, &apdu, caller),
    }
}

/// Step 2: the form.
fn form(command: &[u8]) -> Option<Apdu<'_>> {
    let (header, after) = command.split_at_checked(HEADER_BYTES)?;
    let header = header.try_into().ok()?;
    if after.len() <= 1 {
        return Some(Apdu { header, data: &[] });
    }
    let lc = after[0] as usize;
    let right = lc != 0 && (after.len() == 1 + lc || after.len() == 2 + lc);
    right.then(|| Apdu {
        header,
        data: &after[1..1 + lc],
    })
}

/// Step 3: the class and the instruction.
fn name_of(card: &Card, apdu: &Apdu) -> Result<Name, End> {
    let is_select = apdu.class() == 0x00 && apdu.instruction() == 0xa4;
    if is_select {
        return Ok(Name::Select);
    }
    require(apdu.class() == 0x80, UNKNOWN_CLASS)?;
    let known = INSTRUCTIONS.iter().find(|known| known.1 == apdu.instruction());
    let name = known.ok_or(End::Status(UNKNOWN_INSTRUCTION))?.0;
    require(name != Name::Select, UNKNOWN_INSTRUCTION)?;
    require((name == Name::Init) == (card.initialised == NO), UNKNOWN_INSTRUCTION)?;
    Ok(name)
}

/// Step 5, with the P1 that the command lists, for a command whose P2 is 00.
pub fn require_p1(apdu: &Apdu, listed: &[u8]) -> Result<(), End> {
    require_p1_p2(apdu, listed, &[0x00])
}

/// Step 5, with the P1 and the P2 that the command lists, one apart from the other.
pub fn require_p1_p2(apdu: &Apdu, listed_p1: &[u8], listed_p2: &[u8]) -> Result<(), End> {
    let right = listed_p1.contains(&apdu.p1()) && listed_p2.contains(&apdu.p2());
    require(right, WRONG_P1_P2)
}

/// The index of each slot: they count from 0.
pub const SLOT_INDICES: [u8; SLOTS] = slot_indices();

const fn slot_indices() -> [u8; SLOTS] {
    let mut indices = [0; SLOTS];
    let mut index = 0;
    while index < SLOTS {
        indices[index] = index as u8;
        index += 1;
    }
    indices
}

fn select(card: &mut Card, apdu: &Apdu) -> Outcome {
    require_p1(apdu, &[0x04])?;
    require(apdu.data == APPLICATION_ID, NOT_FOUND)?;
    card.close_channel();
    Ok(Reply::success(select_answer(card)))
}

fn select_answer(card: &Card) -> Vec<u8> {
    if card.initialised == NO {
        return field(0x80, &card.public_key);
    }
    let key_uid: &[u8] = if card.key_kind == NO_KEY { &[] } else { &card.key_uid };
    let inner = [
        field(0x8f, &card.uid),
        field(0x80, &card.public_key),
        field(0x02, &VERSION),
        field(0x02, &[card.free_slots() as u8]),
        field(0x8e, key_uid),
    ];
    field(0xa4, &inner.concat())
}

fn init(card: &mut Card, apdu: &Apdu, caller: &Caller) -> Outcome {
    require_p1(apdu, &[0x00])?;
    let data = apdu.data;
    let right = data.len() == INIT_DATA_BYTES && data[0] as usize == POINT_BYTES && data[1] == POINT_START;
    require(right, WRONG_DATA)?;
    let supply = caller.supply(FOR_INIT, data)?;
    require(supply[0] == YES, WRONG_DATA)?;
    let (iv, ciphertext) = data[1 + POINT_BYTES..].split_at(BLOCK_BYTES);
    let opened = unpad(&decrypt(&key(&supply[1..]), &block(iv), ciphertext));
    let content = opened.ok_or(End::Status(WRONG_DATA))?;
    require(content.len() == INIT_CONTENT_BYTES, WRONG_DATA)?;
    let (pin, after_pin) = content.split_at(PIN_BYTES);
    let (puk, secret) = after_pin.split_at(PUK_BYTES);
    require(is_digits(pin) && is_digits(puk), WRONG_DATA)?;
    card.initialised = YES;
    card.pin.copy_from_slice(pin);
    card.puk.copy_from_slice(puk);
    card.pairing_secret.copy_from_slice(secret);
    card.pin_tries = PIN_TRIES;
    card.puk_tries = PUK_TRIES;
    Ok(Reply::success(Vec::new()))
}

fn open(card: &mut Card, apdu: &Apdu, caller: &Caller) -> Outcome {
    card.close_channel();
    require_p1(apdu, &SLOT_INDICES)?;
    require(card.slots[apdu.p1() as usize].filled == YES, WRONG_P1_P2)?;
    require(is_point(apdu.data), WRONG_DATA)?;
    let supply = caller.supply(FOR_OPEN, apdu.data)?;
    require(supply[0] == YES, WRONG_DATA)?;
    let (enc_key, after_enc_key) = supply[1..].split_at(KEY_BYTES);
    let (mac_key, after_mac_key) = after_enc_key.split_at(KEY_BYTES);
    let (salt, iv) = after_mac_key.split_at(SALT_BYTES);
    card.stage = OPENED;
    card.session = Session {
        enc_key: key(enc_key),
        mac_key: key(mac_key),
        iv: block(iv),
    };
    Ok(Reply::success([salt, iv].concat()))
}

fn is_point(data: &[u8]) -> bool {
    data.len() == POINT_BYTES && data[0] == POINT_START
}

fn key(bytes: &[u8]) -> Key {
    bytes.try_into().expect("32 bytes")
}

fn block(bytes: &[u8]) -> Block {
    bytes.try_into().expect("16 bytes")
}
