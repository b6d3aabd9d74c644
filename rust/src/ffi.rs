//! The functions of `include/treadlewisp.h`, and with the feature `sha256` that of `include/sha_c.h`. With `secrets`, the only unsafe code of
//! this crate. A call leaves secrets on the stack; whoever calls a function of this module does it by `secrets::wiped`.
//!
//! What the headers ask of a caller holds at every call here, because the arguments are references to Rust values:
//! - a reference or slice is not null, a slice's not even when it is empty, and is valid for its whole length, which is under 2^63 bytes;
//! - what is behind `&mut` overlaps nothing else that the call is given, and no other thread uses it;
//! - what is behind `&` is written by no one, as no type here has interior mutability;
//! - `Card` and `Session` are `repr(C)` and have the header's layout, asserted at compile time where they are declared.

use core::mem::{offset_of, size_of};

use crate::card::{Answered, Asked, Card};
use crate::lengths::*;
use crate::refusal::Refusal;
use crate::session::Session;
#[cfg(feature = "sha256")]
use crate::sha256::DIGEST_BYTES;
use crate::supply::SupplyKind;
use crate::walk::WalkFault;

/// `tw_asked`.
#[repr(C)]
struct ReportAsked {
    refusal: u8,
    kind: u8,
    count: usize,
}

/// `tw_answered`.
#[repr(C)]
struct ReportAnswered {
    refusal: u8,
    count: usize,
    fault_offset: usize,
}

/// `tw_walked`.
#[repr(C)]
struct ReportWalked {
    refusal: u8,
    count: usize,
    fault_offset: usize,
}

/// `tw_told`.
#[repr(C)]
struct Report {
    refusal: u8,
    count: usize,
}

/// `tw_tapped`.
#[repr(C)]
struct ReportTapped {
    refusal: u8,
    source: u8,
    offset: usize,
    length: usize,
}

/// `TW_NO_FAULT`: no offset of opened data is as great.
const NO_FAULT: usize = 255;
const _: () = assert!(NO_FAULT >= DATA_MAX_BYTES);

/// `TW_TAP_RECORD` and `TW_TAP_FACTORY`.
const TAP_RECORD: u8 = 1;
const TAP_FACTORY: u8 = 2;

const _: () = assert!(size_of::<ReportTapped>() == 24 && offset_of!(ReportTapped, source) == 1);
const _: () = assert!(offset_of!(ReportTapped, offset) == 8 && offset_of!(ReportTapped, length) == 16);
const _: () = assert!(size_of::<ReportAsked>() == 16 && offset_of!(ReportAsked, kind) == 1 && offset_of!(ReportAsked, count) == 8);
const _: () = assert!(size_of::<ReportAnswered>() == 24 && offset_of!(ReportAnswered, refusal) == 0);
const _: () = assert!(offset_of!(ReportAnswered, count) == 8 && offset_of!(ReportAnswered, fault_offset) == 16);
const _: () = assert!(size_of::<ReportWalked>() == 24 && offset_of!(ReportWalked, refusal) == 0);
const _: () = assert!(offset_of!(ReportWalked, count) == 8 && offset_of!(ReportWalked, fault_offset) == 16);
const _: () = assert!(size_of::<Report>() == 16 && offset_of!(Report, count) == 8);

extern "C" {
    fn tw_fresh(card: *mut Card, uid: *const u8, public_key: *const u8);
    fn tw_sound(card: *const Card) -> u8;
    fn tw_reset(card: *mut Card) -> u8;
    fn tw_ask(card: *const Card, cmd: *const u8, cmd_bytes: usize, buf: *mut u8, buf_bytes: usize) -> ReportAsked;
    fn tw_answer(
        card: *mut Card,
        cmd: *const u8,
        cmd_bytes: usize,
        supply: *const u8,
        supply_bytes: usize,
        buf: *mut u8,
        buf_bytes: usize,
    ) -> ReportAnswered;
    fn tw_seal(session: *mut Session, header: *const u8, data: *const u8, data_bytes: usize, buf: *mut u8, buf_bytes: usize) -> Report;
    fn tw_unseal(session: *mut Session, response: *const u8, response_bytes: usize, buf: *mut u8, buf_bytes: usize) -> Report;
    fn tw_walk(input: *const u8, input_bytes: usize) -> ReportWalked;
    fn tw_entropy(words: *const u8, words_bytes: usize, buf: *mut u8, buf_bytes: usize) -> Report;
    fn tw_write(card: *const Card, buf: *mut u8, buf_bytes: usize) -> Report;
    fn tw_read(card: *mut Card, record: *const u8, record_bytes: usize) -> u8;
    fn tw_tap(record: *const u8, record_bytes: usize, factory: *const u8, factory_bytes: usize) -> ReportTapped;
}

#[cfg(feature = "sha256")]
extern "C" {
    fn tw_sha256(message: *const u8, message_bytes: usize, digest: *mut u8, digest_bytes: usize) -> u8;
}

/// What a refusal's number says. The library is proved to give 0 to 11 alone; any other number would come from another library, and stops
/// the caller as a card that is not sound does.
fn done(refusal: u8) -> Result<(), Refusal> {
    match refusal {
        0 => Ok(()),
        number => Err(Refusal::from_number(number).unwrap_or(Refusal::Unsound)),
    }
}

impl Report {
    fn count(self) -> Result<usize, Refusal> {
        done(self.refusal).map(|()| self.count)
    }
}

pub(crate) fn fresh(card: &mut Card, uid: &[u8; UID_BYTES], public_key: &[u8; PUBLIC_KEY_BYTES]) {
    // SAFETY: the card is its whole record to write, borrowed alone; the arrays are of the lengths asked for, to read.
    unsafe { tw_fresh(card, uid.as_ptr(), public_key.as_ptr()) }
}

pub(crate) fn sound(card: &Card) -> bool {
    // SAFETY: the card is its whole record to read.
    unsafe { tw_sound(card) == 1 }
}

pub(crate) fn reset(card: &mut Card) -> Result<(), Refusal> {
    // SAFETY: the card is its whole record to read and write, borrowed alone.
    done(unsafe { tw_reset(card) })
}

pub(crate) fn ask(card: &Card, command: &[u8], buffer: &mut [u8]) -> Result<Asked, Refusal> {
    // SAFETY: the card is its whole record to read; command and buffer are given with their lengths, the buffer is borrowed alone.
    let report = unsafe { tw_ask(card, command.as_ptr(), command.len(), buffer.as_mut_ptr(), buffer.len()) };
    done(report.refusal)?;
    Ok(Asked {
        kind: SupplyKind::from_number(report.kind).unwrap_or(SupplyKind::None),
        count: report.count,
    })
}

pub(crate) fn answer(card: &mut Card, command: &[u8], supply: &[u8], buffer: &mut [u8]) -> Result<Answered, Refusal> {
    // SAFETY: the card is its whole record to read and write; command, supply and buffer are given with their lengths; card and buffer are each
    // borrowed alone.
    let report = unsafe {
        tw_answer(
            card,
            command.as_ptr(),
            command.len(),
            supply.as_ptr(),
            supply.len(),
            buffer.as_mut_ptr(),
            buffer.len(),
        )
    };
    done(report.refusal)?;
    Ok(Answered {
        count: report.count,
        fault_offset: (report.fault_offset != NO_FAULT).then_some(report.fault_offset),
    })
}

pub(crate) fn seal(session: &mut Session, header: &[u8; HEADER_BYTES], data: &[u8], buffer: &mut [u8]) -> Result<usize, Refusal> {
    // SAFETY: the session is all of it to read and write, the header of the length asked for, to read; data and buffer are given with their lengths; session
    // and buffer are each borrowed alone.
    let report = unsafe {
        tw_seal(
            session,
            header.as_ptr(),
            data.as_ptr(),
            data.len(),
            buffer.as_mut_ptr(),
            buffer.len(),
        )
    };
    report.count()
}

pub(crate) fn unseal(session: &mut Session, response: &[u8], buffer: &mut [u8]) -> Result<usize, Refusal> {
    // SAFETY: the session is all of it to read and write; response and buffer are given with their lengths; session and buffer are each
    // borrowed alone.
    let report = unsafe { tw_unseal(session, response.as_ptr(), response.len(), buffer.as_mut_ptr(), buffer.len()) };
    report.count()
}

pub(crate) fn walk(input: &[u8]) -> Result<usize, WalkFault> {
    // SAFETY: the input is given with its length, to read.
    let report = unsafe { tw_walk(input.as_ptr(), input.len()) };
    let fault = |refusal| WalkFault {
        refusal,
        offset: report.fault_offset,
    };
    done(report.refusal).map(|()| report.count).map_err(fault)
}

pub(crate) fn entropy(words: &[u8], buffer: &mut [u8]) -> Result<usize, Refusal> {
    // SAFETY: words and buffer are given with their lengths, the words to read; the buffer is borrowed alone.
    let report = unsafe { tw_entropy(words.as_ptr(), words.len(), buffer.as_mut_ptr(), buffer.len()) };
    report.count()
}

pub(crate) fn write(card: &Card, buffer: &mut [u8]) -> Result<usize, Refusal> {
    // SAFETY: the card is its whole record to read; the buffer is given with its length and borrowed alone.
    let report = unsafe { tw_write(card, buffer.as_mut_ptr(), buffer.len()) };
    report.count()
}

pub(crate) fn read(card: &mut Card, record: &[u8]) -> Result<(), Refusal> {
    // SAFETY: the card is its whole record to write, borrowed alone; the record is given with its length, to read.
    done(unsafe { tw_read(card, record.as_ptr(), record.len()) })
}

/// The library is proved to give a part that lies within one of the two. Another source or place would come from another library; there is
/// then no part.
pub(crate) fn tap<'a>(record: &'a [u8], factory: &'a [u8]) -> Result<&'a [u8], Refusal> {
    // SAFETY: record and factory record are given with their lengths, to read.
    let report = unsafe { tw_tap(record.as_ptr(), record.len(), factory.as_ptr(), factory.len()) };
    done(report.refusal)?;
    let part = match report.source {
        TAP_RECORD => record.get(report.offset..),
        TAP_FACTORY => factory.get(report.offset..),
        _ => None,
    };
    part.and_then(|part| part.get(..report.length)).ok_or(Refusal::NotRecord)
}

/// `TW_HASH_DONE`.
#[cfg(feature = "sha256")]
const HASH_DONE: u8 = 0;

/// The library is proved to be done wherever the room is that of a digest. Another number would come from another library, and no digest is
/// made up for it.
#[cfg(feature = "sha256")]
pub(crate) fn sha256(message: &[u8]) -> [u8; DIGEST_BYTES] {
    let mut digest = [0; DIGEST_BYTES];
    // SAFETY: the message is given with its length, to read; the digest with its length, to write, and it is borrowed alone.
    let told = unsafe { tw_sha256(message.as_ptr(), message.len(), digest.as_mut_ptr(), digest.len()) };
    assert_eq!(told, HASH_DONE, "libsha_c.a is not the proved library");
    digest
}
