//! The functions that the library `treadlewisp` exports to C, for Rust. Cards and sessions lie at that boundary as the bytes that the model's layout
//! gives. Lengths and counts are in bytes; a slice is passed as its start and its length.

use crate::model::card::{POINT_BYTES, UID_BYTES};
use crate::model::message::HEADER_BYTES;

pub use crate::model::layout::{card_bytes, card_of, session_bytes, CARD_BYTES, SESSION_BYTES};

#[repr(C)]
#[derive(Clone, Copy, PartialEq, Eq, Debug)]
pub struct Asked {
    pub refusal: u8,
    pub kind: u8,
    pub count: usize,
}

#[repr(C)]
#[derive(Clone, Copy, PartialEq, Eq, Debug)]
pub struct Told {
    pub refusal: u8,
    pub count: usize,
}

/// ANSWER's; `fault_offset` is 255 where there is none.
#[repr(C)]
#[derive(Clone, Copy, PartialEq, Eq, Debug)]
pub struct Answered {
    pub refusal: u8,
    pub count: usize,
    pub fault_offset: usize,
}

/// WALK's; `count` is in fields, and `fault_offset` is 0 where it does not refuse.
#[repr(C)]
#[derive(Clone, Copy, PartialEq, Eq, Debug)]
pub struct Walked {
    pub refusal: u8,
    pub count: usize,
    pub fault_offset: usize,
}

/// The tap read's part; `source` is 0 for none, 1 for the stored record and 2 for the factory record.
#[repr(C)]
#[derive(Clone, Copy, PartialEq, Eq, Debug)]
pub struct Tapped {
    pub refusal: u8,
    pub source: u8,
    pub offset: usize,
    pub length: usize,
}

mod c {
    use super::{Answered, Asked, Tapped, Told, Walked};

    extern "C" {
        pub fn tw_fresh(card: *mut u8, uid: *const u8, public_key: *const u8);
        pub fn tw_sound(card: *const u8) -> u8;
        pub fn tw_reset(card: *mut u8) -> u8;
        pub fn tw_ask(card: *const u8, cmd: *const u8, cmd_bytes: usize, buf: *mut u8, buf_bytes: usize) -> Asked;
        pub fn tw_answer(
            card: *mut u8,
            cmd: *const u8,
            cmd_bytes: usize,
            supply: *const u8,
            supply_bytes: usize,
            buf: *mut u8,
            buf_bytes: usize,
        ) -> Answered;
        pub fn tw_seal(session: *mut u8, header: *const u8, data: *const u8, data_bytes: usize, buf: *mut u8, buf_bytes: usize) -> Told;
        pub fn tw_unseal(session: *mut u8, response: *const u8, response_bytes: usize, buf: *mut u8, buf_bytes: usize) -> Told;
        pub fn tw_walk(input: *const u8, input_bytes: usize) -> Walked;
        pub fn tw_write(card: *const u8, buf: *mut u8, buf_bytes: usize) -> Told;
        pub fn tw_read(card: *mut u8, record: *const u8, record_bytes: usize) -> u8;
        pub fn tw_tap(record: *const u8, record_bytes: usize, factory: *const u8, factory_bytes: usize) -> Tapped;
        pub fn tw_entropy(words: *const u8, words_bytes: usize, buf: *mut u8, buf_bytes: usize) -> Told;
    }
}

// Safe: a card or session has the length that the library takes it for, which `sized` and `writable` see to; slices are borrowed for the
// call, a mutable one from no other.
fn sized(bytes: &[u8], wanted_bytes: usize) -> *const u8 {
    assert_eq!(bytes.len(), wanted_bytes);
    bytes.as_ptr()
}

fn writable(bytes: &mut [u8], wanted_bytes: usize) -> *mut u8 {
    assert_eq!(bytes.len(), wanted_bytes);
    bytes.as_mut_ptr()
}

pub fn fresh(card: &mut [u8], uid: &[u8; UID_BYTES], public_key: &[u8; POINT_BYTES]) {
    unsafe { c::tw_fresh(writable(card, CARD_BYTES), uid.as_ptr(), public_key.as_ptr()) }
}

pub fn sound(card: &[u8]) -> u8 {
    unsafe { c::tw_sound(sized(card, CARD_BYTES)) }
}

pub fn reset(card: &mut [u8]) -> u8 {
    unsafe { c::tw_reset(writable(card, CARD_BYTES)) }
}

pub fn ask(card: &[u8], command: &[u8], buffer: &mut [u8]) -> Asked {
    unsafe {
        c::tw_ask(
            sized(card, CARD_BYTES),
            command.as_ptr(),
            command.len(),
            buffer.as_mut_ptr(),
            buffer.len(),
        )
    }
}

pub fn answer(card: &mut [u8], command: &[u8], supply: &[u8], buffer: &mut [u8]) -> Answered {
    unsafe {
        c::tw_answer(
            writable(card, CARD_BYTES),
            command.as_ptr(),
            command.len(),
            supply.as_ptr(),
            supply.len(),
            buffer.as_mut_ptr(),
            buffer.len(),
        )
    }
}

pub fn seal(session: &mut [u8], header: &[u8; HEADER_BYTES], data: &[u8], buffer: &mut [u8]) -> Told {
    unsafe {
        c::tw_seal(
            writable(session, SESSION_BYTES),
            header.as_ptr(),
            data.as_ptr(),
            data.len(),
            buffer.as_mut_ptr(),
            buffer.len(),
        )
    }
}

pub fn unseal(session: &mut [u8], response: &[u8], buffer: &mut [u8]) -> Told {
    unsafe {
        c::tw_unseal(
            writable(session, SESSION_BYTES),
            response.as_ptr(),
            response.len(),
            buffer.as_mut_ptr(),
            buffer.len(),
        )
    }
}

pub fn walk(input: &[u8]) -> Walked {
    unsafe { c::tw_walk(input.as_ptr(), input.len()) }
}

pub fn write(card: &[u8], buffer: &mut [u8]) -> Told {
    unsafe { c::tw_write(sized(card, CARD_BYTES), buffer.as_mut_ptr(), buffer.len()) }
}

pub fn read(card: &mut [u8], record: &[u8]) -> u8 {
    unsafe { c::tw_read(writable(card, CARD_BYTES), record.as_ptr(), record.len()) }
}

pub fn tap(record: &[u8], factory: &[u8]) -> Tapped {
    unsafe { c::tw_tap(record.as_ptr(), record.len(), factory.as_ptr(), factory.len()) }
}

pub fn entropy(words: &[u8], buffer: &mut [u8]) -> Told {
    unsafe { c::tw_entropy(words.as_ptr(), words.len(), buffer.as_mut_ptr(), buffer.len()) }
}
