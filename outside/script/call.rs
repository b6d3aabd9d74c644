//! From a line to its call: the name, the number of words, then the arguments from left to right. A line that is not right gives the reason.
//! Lengths and rooms are in bytes.

use super::bytes::{bytes_of, number_of, Fault, MOST_BYTES};
use super::fields::{card_field, Field};
use super::lines::words_of;
use outside::ciphers::plain::{Block, Key};
use outside::model::card::{POINT_BYTES, UID_BYTES};
use outside::model::engine::*;
use outside::model::message::HEADER_BYTES;

/// A call with its arguments, in the order of the words; a room comes last.
#[derive(PartialEq, Eq, Debug)]
pub enum Call {
    Help,
    /// UID and public key.
    Fresh([u8; UID_BYTES], [u8; POINT_BYTES]),
    Reset,
    /// Command.
    Ask(Vec<u8>, usize),
    /// Command and supply.
    Answer(Vec<u8>, Vec<u8>, usize),
    /// Header and data.
    Seal([u8; HEADER_BYTES], Vec<u8>, usize),
    /// Response.
    Unseal(Vec<u8>, usize),
    /// Header, data and supply.
    Send([u8; HEADER_BYTES], Vec<u8>, Vec<u8>),
    Walk(Vec<u8>),
    /// Word numbers.
    Entropy(Vec<u8>, usize),
    Write(usize),
    Read(Vec<u8>),
    /// Stored record and factory record.
    Tap(Vec<u8>, Vec<u8>),
    Sound,
    Card,
    Set(Field, Vec<u8>),
    Session,
    /// Encryption key, MAC key and IV.
    TakeSession(Key, Key, Block),
    TakeSessionOfCard,
}

/// Each call and how many words it can have, its name included.
const CALLS: [(&str, &[usize]); 17] = [
    ("help", &[1]),
    ("fresh", &[3]),
    ("reset", &[1]),
    ("ask", &[2, 4]),
    ("answer", &[3, 5]),
    ("seal", &[3, 5]),
    ("unseal", &[2, 4]),
    ("send", &[4]),
    ("walk", &[2]),
    ("entropy", &[2, 4]),
    ("write", &[1, 3]),
    ("read", &[2]),
    ("tap", &[3]),
    ("sound", &[1]),
    ("card", &[1]),
    ("set", &[3]),
    ("session", &[1, 2, 4]),
];

/// A length with its unit.
pub fn length_text(bytes: usize) -> String {
    match bytes {
        1 => "1 byte".to_string(),
        _ => format!("{bytes} bytes"),
    }
}

/// The words after a call's name that are still to be read, and what `last` means in them.
struct Arguments<'a> {
    words: std::slice::Iter<'a, &'a [u8]>,
    last: &'a [u8],
}

impl<'a> Arguments<'a> {
    fn word(&mut self) -> &'a [u8] {
        self.words.next().expect("the words were counted")
    }

    fn bytes(&mut self, name: &str) -> Result<Vec<u8>, String> {
        bytes_of(self.word(), self.last).map_err(|fault| match fault {
            Fault::Form => format!("{name} is not bytes"),
            Fault::TooMany => format!("{name} has more than {MOST_BYTES} bytes"),
        })
    }

    fn array<const N: usize>(&mut self, name: &str) -> Result<[u8; N], String> {
        let bytes = self.bytes(name)?;
        let given_bytes = bytes.len();
        bytes.try_into().map_err(|_| wrong_length(name, N, given_bytes))
    }

    /// The room that the last two words tell, or the least that the operation takes.
    fn room(&mut self, least_bytes: usize) -> Result<usize, String> {
        let Some(&word) = self.words.next() else {
            return Ok(least_bytes);
        };
        let room = number_of(self.word()).filter(|_| word == b"room");
        room.ok_or(format!("the room is a number of bytes, 0 to {MOST_BYTES}"))
    }

    fn set(&mut self) -> Result<Call, String> {
        let field = card_field(self.word()).ok_or("the card has no such field")?;
        let bytes = self.bytes("BYTES")?;
        if bytes.len() != field.1.len() {
            return Err(wrong_length(field.0, field.1.len(), bytes.len()));
        }
        Ok(Call::Set(field, bytes))
    }
}

fn wrong_length(name: &str, wanted_bytes: usize, given_bytes: usize) -> String {
    format!("{name} has {}, not {}", length_text(wanted_bytes), length_text(given_bytes))
}

/// The call of this line, or the reason why it is a bad one.
pub fn call_of(text: &[u8], last: &[u8]) -> Result<Call, String> {
    let words = words_of(text);
    let known = CALLS.iter().find(|known| known.0.as_bytes() == words[0]);
    let &(name, counts) = known.ok_or("no such call, help lists them")?;
    if !counts.contains(&words.len()) || (name == "session" && words.len() == 2 && words[1] != b"card") {
        return Err(format!("{name} takes other words, help lists them"));
    }
    let words = words[1..].iter();
    arguments_of(name, Arguments { words, last })
}

fn arguments_of(name: &str, mut arguments: Arguments) -> Result<Call, String> {
    let a = &mut arguments;
    Ok(match (name, a.words.len()) {
        ("help", _) => Call::Help,
        ("fresh", _) => Call::Fresh(a.array("UID")?, a.array("KEY")?),
        ("reset", _) => Call::Reset,
        ("ask", _) => Call::Ask(a.bytes("COMMAND")?, a.room(ASK_ROOM_BYTES)?),
        ("answer", _) => Call::Answer(a.bytes("COMMAND")?, a.bytes("SUPPLY")?, a.room(ANSWER_ROOM_BYTES)?),
        ("seal", _) => Call::Seal(a.array("HEADER")?, a.bytes("DATA")?, a.room(SEAL_ROOM_BYTES)?),
        ("unseal", _) => Call::Unseal(a.bytes("RESPONSE")?, a.room(UNSEAL_ROOM_BYTES)?),
        ("send", _) => Call::Send(a.array("HEADER")?, a.bytes("DATA")?, a.bytes("SUPPLY")?),
        ("walk", _) => Call::Walk(a.bytes("BYTES")?),
        ("entropy", _) => Call::Entropy(a.bytes("WORDS")?, a.room(ENTROPY_ROOM_BYTES)?),
        ("write", _) => Call::Write(a.room(WRITE_ROOM_BYTES)?),
        ("read", _) => Call::Read(a.bytes("RECORD")?),
        ("tap", _) => Call::Tap(a.bytes("RECORD")?, a.bytes("FACTORY")?),
        ("sound", _) => Call::Sound,
        ("card", _) => Call::Card,
        ("set", _) => a.set()?,
        ("session", 0) => Call::Session,
        ("session", 1) => Call::TakeSessionOfCard,
        ("session", _) => Call::TakeSession(a.array("ENC")?, a.array("MAC")?, a.array("IV")?),
        _ => unreachable!("every name of the table is above"),
    })
}
