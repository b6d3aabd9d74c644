//! The card (RULES 2): its state, FRESH, RESET and when a state is sound. Every field is made of bytes and may hold any value, so that
//! unsound states can be told as well; lengths are in bytes.

use super::cipher::{Block, Key, BLOCK_BYTES, KEY_BYTES};

pub const UID_BYTES: usize = 16;
pub const POINT_BYTES: usize = 65;
pub const PIN_BYTES: usize = 6;
pub const PUK_BYTES: usize = 12;
pub const SECRET_BYTES: usize = 32;
pub const CRYPTOGRAM_BYTES: usize = 32;
pub const KEY_UID_BYTES: usize = 32;
pub const COMPONENT_BYTES: usize = 4;
pub const PATH_BYTES: usize = 40;
/// The most that a tap record has, and what the two bytes at its start, which count the rest, have.
pub const TAP_BYTES: usize = 223;
pub const TAP_COUNT_BYTES: usize = 2;

/// How many pairing slots a card has, and how many it had up to version 0.5.0: stored records of both kinds are read.
pub const SLOTS: usize = 8;
pub const SLOTS_BEFORE: usize = 5;
pub const PIN_TRIES: u8 = 3;
pub const PUK_TRIES: u8 = 5;

pub const NO: u8 = 0;
pub const YES: u8 = 1;

/// Key kinds.
pub const NO_KEY: u8 = 0;
pub const SINGLE_KEY: u8 = 1;
pub const EXTENDED_KEY: u8 = 2;

/// Channel stages.
pub const CLOSED: u8 = 0;
pub const OPENED: u8 = 1;
pub const AUTHENTICATED: u8 = 2;

#[derive(Clone, Copy, PartialEq, Eq, Debug)]
pub struct Slot {
    pub filled: u8,
    pub key: Key,
}

/// A path: the bytes in use, 4 for each component, then unused ones.
#[derive(Clone, Copy, PartialEq, Eq, Debug)]
pub struct Path {
    pub used_bytes: u8,
    pub bytes: [u8; PATH_BYTES],
}

/// The customer's tap record: the bytes in use, none where it was never set, then unused ones.
#[derive(Clone, Copy, PartialEq, Eq, Debug)]
pub struct TapRecord {
    pub used_bytes: u8,
    pub bytes: [u8; TAP_BYTES],
}

/// One end's session: both keys and the IV.
#[derive(Clone, Copy, PartialEq, Eq, Debug)]
pub struct Session {
    pub enc_key: Key,
    pub mac_key: Key,
    pub iv: Block,
}

#[derive(Clone, Copy, PartialEq, Eq, Debug)]
pub struct Card {
    pub initialised: u8,
    pub uid: [u8; UID_BYTES],
    pub public_key: [u8; POINT_BYTES],
    pub pin: [u8; PIN_BYTES],
    pub puk: [u8; PUK_BYTES],
    pub pin_tries: u8,
    pub puk_tries: u8,
    pub verified: u8,
    pub pairing_secret: [u8; SECRET_BYTES],
    pub slots: [Slot; SLOTS],
    pub pending: u8,
    /// The client cryptogram that PAIR's final step has to bring.
    pub expected: [u8; CRYPTOGRAM_BYTES],
    pub key_kind: u8,
    pub key_uid: [u8; KEY_UID_BYTES],
    pub current_path: Path,
    pub pinless_path: Path,
    pub stage: u8,
    pub session: Session,
    pub tap: TapRecord,
}

impl Slot {
    pub const FREE: Slot = Slot {
        filled: NO,
        key: [0; KEY_BYTES],
    };

    fn is_sound(&self) -> bool {
        is_flag(self.filled) && (self.filled == YES || is_zero(&self.key))
    }
}

impl Path {
    pub const EMPTY: Path = Path {
        used_bytes: 0,
        bytes: [0; PATH_BYTES],
    };

    /// The path of these bytes, at most 40.
    pub fn of(used: &[u8]) -> Path {
        let mut path = Path::EMPTY;
        path.used_bytes = used.len() as u8;
        path.bytes[..used.len()].copy_from_slice(used);
        path
    }

    pub fn used(&self) -> &[u8] {
        &self.bytes[..self.used_bytes as usize]
    }

    pub fn is_empty(&self) -> bool {
        self.used_bytes == 0
    }

    fn is_sound(&self) -> bool {
        is_path_length(self.used_bytes as usize) && is_zero(&self.bytes[self.used_bytes as usize..])
    }
}

/// At most 10 components of 4 bytes.
pub fn is_path_length(bytes: usize) -> bool {
    bytes <= PATH_BYTES && bytes % COMPONENT_BYTES == 0
}

impl TapRecord {
    pub const NONE: TapRecord = TapRecord {
        used_bytes: 0,
        bytes: [0; TAP_BYTES],
    };

    /// The tap record of these bytes, at most 223.
    pub fn of(used: &[u8]) -> TapRecord {
        let mut tap = TapRecord::NONE;
        tap.used_bytes = used.len() as u8;
        tap.bytes[..used.len()].copy_from_slice(used);
        tap
    }

    pub fn used(&self) -> &[u8] {
        &self.bytes[..self.used_bytes as usize]
    }

    /// None, or what SET NDEF takes; unused bytes are zero.
    fn is_sound(&self) -> bool {
        let Some((used, unused)) = self.bytes.split_at_checked(self.used_bytes as usize) else {
            return false;
        };
        (used.is_empty() || is_tap_record(used)) && is_zero(unused)
    }
}

/// What SET NDEF takes: at least two bytes and at most 223, of which the first two, high byte first, are the number of the others.
pub fn is_tap_record(data: &[u8]) -> bool {
    match data {
        [high, low, rest @ ..] => data.len() <= TAP_BYTES && u16::from_be_bytes([*high, *low]) as usize == rest.len(),
        _ => false,
    }
}

impl Session {
    pub const ZERO: Session = Session {
        enc_key: [0; KEY_BYTES],
        mac_key: [0; KEY_BYTES],
        iv: [0; BLOCK_BYTES],
    };
}

impl Card {
    /// FRESH: a pre-initialized card has UID and public key, and all else zero.
    pub fn fresh(uid: [u8; UID_BYTES], public_key: [u8; POINT_BYTES]) -> Card {
        Card {
            initialised: NO,
            uid,
            public_key,
            pin: [0; PIN_BYTES],
            puk: [0; PUK_BYTES],
            pin_tries: 0,
            puk_tries: 0,
            verified: NO,
            pairing_secret: [0; SECRET_BYTES],
            slots: [Slot::FREE; SLOTS],
            pending: NO,
            expected: [0; CRYPTOGRAM_BYTES],
            key_kind: NO_KEY,
            key_uid: [0; KEY_UID_BYTES],
            current_path: Path::EMPTY,
            pinless_path: Path::EMPTY,
            stage: CLOSED,
            session: Session::ZERO,
            tap: TapRecord::NONE,
        }
    }

    /// RESET's effect: power-up.
    pub fn power_up(&mut self) {
        self.close_channel();
        self.forget_pending();
    }

    /// The only way out of stage 2: verification ends with the channel.
    pub fn close_channel(&mut self) {
        self.stage = CLOSED;
        self.session = Session::ZERO;
        self.verified = NO;
    }

    pub fn forget_pending(&mut self) {
        self.pending = NO;
        self.expected = [0; CRYPTOGRAM_BYTES];
    }

    pub fn first_free_slot(&self) -> Option<usize> {
        self.slots.iter().position(|slot| slot.filled == NO)
    }

    pub fn free_slots(&self) -> usize {
        self.slots.iter().filter(|slot| slot.filled == NO).count()
    }

    /// Sound, rule by rule (RULES 2.3).
    pub fn is_sound(&self) -> bool {
        if self.initialised == NO {
            return *self == Card::fresh(self.uid, self.public_key);
        }
        let flags = is_flag(self.initialised) && is_flag(self.verified) && is_flag(self.pending);
        let key_kind = self.key_kind <= EXTENDED_KEY;
        let digits = is_digits(&self.pin) && is_digits(&self.puk);
        let tries = self.pin_tries <= PIN_TRIES && self.puk_tries <= PUK_TRIES;
        let verified = self.verified == NO || (self.pin_tries == PIN_TRIES && self.stage == AUTHENTICATED);
        let stage = self.stage <= AUTHENTICATED;
        let pending = self.pending == NO || (self.stage == CLOSED && self.first_free_slot().is_some());
        let paths = self.current_path.is_sound() && self.pinless_path.is_sound();
        let current = self.current_path.is_empty() || self.key_kind == EXTENDED_KEY;
        let key_uid = self.key_kind != NO_KEY || is_zero(&self.key_uid);
        let slots = self.slots.iter().all(Slot::is_sound);
        let expected = self.pending == YES || is_zero(&self.expected);
        let session = self.stage != CLOSED || self.session == Session::ZERO;
        let tap = self.tap.is_sound();
        flags
            && key_kind
            && digits
            && tries
            && verified
            && stage
            && pending
            && paths
            && current
            && key_uid
            && slots
            && expected
            && session
            && tap
    }
}

fn is_flag(byte: u8) -> bool {
    byte == NO || byte == YES
}

fn is_zero(bytes: &[u8]) -> bool {
    bytes.iter().all(|&b| b == 0)
}

pub fn is_digits(bytes: &[u8]) -> bool {
    bytes.iter().all(u8::is_ascii_digit)
}
