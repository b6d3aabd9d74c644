//! The operations (RULES 3) with their refusals and buffers. Each writes from the buffer's start and leaves the bytes past the count;
//! a refusal changes nothing. Lengths and counts are in bytes.

use super::card::{Card, Session, POINT_BYTES, UID_BYTES};
use super::commands::{run, Caller, Comparison, End};
use super::message::{open_response, seal_command, seal_response, HEADER_BYTES, MAX_DATA_BYTES};
use super::phrase::entropy_of;
use super::record::{card_of, own_tap_record, record_of};
use super::status::*;
use super::template;

pub const ASK_ROOM_BYTES: usize = 255;
pub const ANSWER_ROOM_BYTES: usize = 258;
pub const SEAL_ROOM_BYTES: usize = 261;
pub const UNSEAL_ROOM_BYTES: usize = 223;
pub const WRITE_ROOM_BYTES: usize = 773;
pub const ENTROPY_ROOM_BYTES: usize = 32;

/// ANSWER's number where there is no fault offset: opened data have at most 223 bytes.
pub const NO_FAULT: usize = 255;

#[derive(Clone, Copy, PartialEq, Eq, Debug)]
pub struct Asked {
    pub refusal: u8,
    pub kind: u8,
    pub count: usize,
}

#[derive(Clone, Copy, PartialEq, Eq, Debug)]
pub struct Told {
    pub refusal: u8,
    pub count: usize,
}

/// Where the tap read's part lies.
#[derive(Clone, Copy, PartialEq, Eq, PartialOrd, Ord, Debug)]
#[repr(u8)]
pub enum Source {
    /// Nowhere: the read is refused.
    None = 0,
    /// In the lent stored record.
    Record = 1,
    /// It is the lent factory record, whole.
    Factory = 2,
}

/// The tap read's part: `length` bytes from `offset` on.
#[derive(Clone, Copy, PartialEq, Eq, Debug)]
pub struct Tapped {
    pub refusal: u8,
    pub source: Source,
    pub offset: usize,
    pub length: usize,
}

/// What WALK tells: the number of fields, and the offset of the faulty field's tag where it refuses, else 0.
#[derive(Clone, Copy, PartialEq, Eq, Debug)]
pub struct Walked {
    pub refusal: u8,
    pub count: usize,
    pub fault_offset: usize,
}

/// What ANSWER tells, its number among it: the offset of the faulty field's tag in the opened data, or 255. Beside it what it decided: the
/// status word, whether it was sealed, and the comparison that was made.
#[derive(Clone, Copy, PartialEq, Eq, Debug)]
pub struct Answered {
    pub told: Told,
    pub fault_offset: usize,
    pub status: Option<u16>,
    pub sealed: bool,
    pub comparison: Option<Comparison>,
}

fn refused(refusal: u8) -> Told {
    Told { refusal, count: 0 }
}

/// Writes from the buffer's start.
fn put(buffer: &mut [u8], bytes: &[u8]) -> Told {
    buffer[..bytes.len()].copy_from_slice(bytes);
    Told {
        refusal: NOT_REFUSED,
        count: bytes.len(),
    }
}

pub fn reset(card: &mut Card) -> u8 {
    if !card.is_sound() {
        return UNSOUND;
    }
    card.power_up();
    NOT_REFUSED
}

pub fn ask(card: &Card, command: &[u8], buffer: &mut [u8]) -> Asked {
    let nothing = |refusal| Asked {
        refusal,
        kind: 0,
        count: 0,
    };
    if !card.is_sound() {
        return nothing(UNSOUND);
    }
    if buffer.len() < ASK_ROOM_BYTES {
        return nothing(SHORT_BUFFER);
    }
    let mut thrown_away = *card;
    match run(&mut thrown_away, command, &Caller::Ask) {
        Err(End::Wants { kind, data }) => Asked {
            refusal: NOT_REFUSED,
            kind,
            count: put(buffer, &data).count,
        },
        _ => nothing(NOT_REFUSED),
    }
}

pub fn answer(card: &mut Card, command: &[u8], supply: &[u8], buffer: &mut [u8]) -> Answered {
    let nothing = |refusal| Answered {
        told: refused(refusal),
        fault_offset: NO_FAULT,
        status: None,
        sealed: false,
        comparison: None,
    };
    if !card.is_sound() {
        return nothing(UNSOUND);
    }
    if buffer.len() < ANSWER_ROOM_BYTES {
        return nothing(SHORT_BUFFER);
    }
    let mut next = *card;
    let Ok(reply) = run(&mut next, command, &Caller::Answer(supply)) else {
        return nothing(WRONG_SUPPLY);
    };
    let mut response = [&reply.data[..], &reply.status.to_be_bytes()].concat();
    if reply.sealed {
        response = [&seal_response(&mut next.session, &response)[..], &SUCCESS.to_be_bytes()].concat();
    }
    *card = next;
    Answered {
        told: put(buffer, &response),
        fault_offset: reply.fault_offset.unwrap_or(NO_FAULT),
        status: Some(reply.status),
        sealed: reply.sealed,
        comparison: reply.comparison,
    }
}

pub fn seal(session: &mut Session, header: [u8; HEADER_BYTES], data: &[u8], buffer: &mut [u8]) -> Told {
    if buffer.len() < SEAL_ROOM_BYTES {
        return refused(SHORT_BUFFER);
    }
    if data.len() > MAX_DATA_BYTES {
        return refused(LONG_DATA);
    }
    put(buffer, &seal_command(session, header, data))
}

pub fn unseal(session: &mut Session, response: &[u8], buffer: &mut [u8]) -> Told {
    if buffer.len() < UNSEAL_ROOM_BYTES {
        return refused(SHORT_BUFFER);
    }
    match open_response(session, response) {
        Some(data) => put(buffer, &data),
        None => refused(NOT_GENUINE),
    }
}

pub fn walk(input: &[u8]) -> Walked {
    let walked = |refusal, count, fault_offset| Walked {
        refusal,
        count,
        fault_offset,
    };
    match template::walk(input) {
        Ok(count) => walked(NOT_REFUSED, count, 0),
        Err(fault) => walked(fault.refusal, 0, fault.offset),
    }
}

/// The reverse of GENERATE MNEMONIC, for the terminal. The room is the same for every count of words.
pub fn entropy(words: &[u8], buffer: &mut [u8]) -> Told {
    if buffer.len() < ENTROPY_ROOM_BYTES {
        return refused(SHORT_BUFFER);
    }
    match entropy_of(words) {
        Ok(entropy) => put(buffer, &entropy),
        Err(refusal) => refused(refusal),
    }
}

pub fn write(card: &Card, buffer: &mut [u8]) -> Told {
    if !card.is_sound() {
        return refused(UNSOUND);
    }
    if buffer.len() < WRITE_ROOM_BYTES {
        return refused(SHORT_BUFFER);
    }
    put(buffer, &record_of(card))
}

/// The refusal and READ's card: FRESH of zeros where it is refused.
pub fn read(record: &[u8]) -> (u8, Card) {
    match card_of(record) {
        Some(card) => (NOT_REFUSED, card),
        None => (NOT_A_RECORD, Card::fresh([0; UID_BYTES], [0; POINT_BYTES])),
    }
}

/// The tap read: the card's own tap record where the stored record has one, else the whole factory record, at which it does not look.
pub fn tap(record: &[u8], factory: &[u8]) -> Tapped {
    let part = |refusal, source, offset, length| Tapped {
        refusal,
        source,
        offset,
        length,
    };
    if card_of(record).is_none() {
        return part(NOT_A_RECORD, Source::None, 0, 0);
    }
    match own_tap_record(record) {
        Some(place) if !place.is_empty() => part(NOT_REFUSED, Source::Record, place.start, place.len()),
        _ => part(NOT_REFUSED, Source::Factory, 0, factory.len()),
    }
}
