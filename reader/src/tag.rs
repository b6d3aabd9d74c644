//! The tap record, for whoever reads tags: the NDEF application of the NFC Forum's Type 4 tag, read only. The host answers it, the engine does not
//! know it; which bytes are the record, the engine's tap read says. Lengths are in bytes.
//!
//! A client selects the application by its name, then a file by its number, and reads it. Every other command is none of the tag's: it ends the
//! tag's application and goes to the engine. SELECT of the tag is RESET for the card, since another application ends the wallet's channel.

use treadlewisp::{tap, wipe, Card, Refusal, WRITE_ROOM_BYTES};

/// The application's name.
const APPLICATION: [u8; 7] = [0xD2, 0x76, 0x00, 0x00, 0x85, 0x01, 0x01];
/// SELECT of an application by its name; Le, 00, may follow.
const SELECT_APPLICATION: [u8; 5] = [0x00, 0xA4, 0x04, 0x00, APPLICATION.len() as u8];
/// SELECT of a file by its number of 2 bytes.
const SELECT_FILE: [u8; 5] = [0x00, 0xA4, 0x00, 0x0C, 0x02];
const READ_BINARY: [u8; 2] = [0x00, 0xB0];

const CAPABILITIES_FILE: [u8; 2] = [0xE1, 0x03];
const NDEF_FILE: [u8; 2] = [0xE1, 0x04];
/// The capability container: its length 15, version 2.0, at most 240 bytes are read and 1 written at a time; and the NDEF file: its number, its
/// room of 223 bytes, anybody may read it, nobody may write it.
const CAPABILITIES: [u8; 15] = [
    0x00, 0x0F, 0x20, 0x00, 0xF0, 0x00, 0x01, 0x04, 0x06, 0xE1, 0x04, 0x00, 0xDF, 0x00, 0xFF,
];
/// The tap record of a card that has none of its own: a message of 3 bytes, one empty record.
const FACTORY: [u8; 5] = [0x00, 0x03, 0xD0, 0x00, 0x00];
/// What Le 00, or no Le, asks for.
const READ_MOST_BYTES: usize = 256;

const SUCCESS: [u8; 2] = [0x90, 0x00];
const WRONG_LENGTH: [u8; 2] = [0x67, 0x00];
const NO_FILE_SELECTED: [u8; 2] = [0x69, 0x86];
const NOT_FOUND: [u8; 2] = [0x6A, 0x82];
const WRONG_OFFSET: [u8; 2] = [0x6B, 0x00];

/// Where a client stands with the tag.
#[derive(Default)]
pub struct Tag {
    selected: bool,
    /// The content of the selected file.
    file: Option<Vec<u8>>,
}

impl Tag {
    /// The tag's answer; none where the command is the engine's.
    pub fn answer(&mut self, card: &mut Card, command: &[u8]) -> Result<Option<Vec<u8>>, Refusal> {
        if names(command, &SELECT_APPLICATION, &APPLICATION) {
            card.reset()?;
            *self = Tag {
                selected: true,
                file: None,
            };
            return Ok(Some(SUCCESS.to_vec()));
        }
        if self.selected && command.starts_with(&SELECT_FILE) {
            self.file = file(card, command)?;
            return Ok(Some(if self.file.is_some() { SUCCESS } else { NOT_FOUND }.to_vec()));
        }
        if self.selected && command.starts_with(&READ_BINARY) {
            return Ok(Some(self.read(command)));
        }
        *self = Tag::default();
        Ok(None)
    }

    /// READ BINARY: an offset of 2 bytes, and Le, or none.
    fn read(&self, command: &[u8]) -> Vec<u8> {
        let (offset, most) = match *command {
            [_, _, high, low] | [_, _, high, low, 0x00] => (u16::from_be_bytes([high, low]), READ_MOST_BYTES),
            [_, _, high, low, le] => (u16::from_be_bytes([high, low]), usize::from(le)),
            _ => return WRONG_LENGTH.to_vec(),
        };
        let Some(file) = &self.file else { return NO_FILE_SELECTED.to_vec() };
        match file.get(usize::from(offset)..) {
            Some(rest) if !rest.is_empty() => [&rest[..rest.len().min(most)], &SUCCESS].concat(),
            _ => WRONG_OFFSET.to_vec(),
        }
    }
}

/// Whether a command is this head and name, without Le or with it.
fn names(command: &[u8], head: &[u8], name: &[u8]) -> bool {
    command
        .strip_prefix(head)
        .and_then(|rest| rest.strip_prefix(name))
        .is_some_and(|le| le.len() <= 1)
}

/// The content of the file that SELECT names; none where there is no such file.
fn file(card: &Card, command: &[u8]) -> Result<Option<Vec<u8>>, Refusal> {
    if names(command, &SELECT_FILE, &CAPABILITIES_FILE) {
        Ok(Some(CAPABILITIES.to_vec()))
    } else if names(command, &SELECT_FILE, &NDEF_FILE) {
        tap_record(card).map(Some)
    } else {
        Ok(None)
    }
}

/// The card's own tap record, or the factory's. The stored record holds PIN and PUK, and is wiped.
fn tap_record(card: &Card) -> Result<Vec<u8>, Refusal> {
    let mut record = [0; WRITE_ROOM_BYTES];
    let record_bytes = card.write(&mut record)?;
    let part = tap(&record[..record_bytes], &FACTORY).map(<[u8]>::to_vec);
    wipe(&mut record);
    part
}
