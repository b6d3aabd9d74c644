//! Plays a script on an engine: every line is written again, and after each call what comes of it. Lengths and counts are in bytes.

use super::answers::*;
use super::call::{call_of, Call};
use super::engine::Engine;
use super::fields::{card_fields, session_fields, session_place, Field};
use super::lines::{lines_of, Line, MOST_LINE_BYTES};
use outside::ffi::treadlewisp::{CARD_BYTES, SESSION_BYTES};
use outside::model::engine::*;
use outside::model::message::HEADER_BYTES;
use outside::model::status::{NOT_REFUSED, SUCCESS};

/// What a buffer holds before a call.
const UNWRITTEN: u8 = 0xee;
/// The instruction whose words `send` shows.
const GENERATE_MNEMONIC: u8 = 0xd2;

/// The script asks for help, which is the soft card's own.
#[derive(PartialEq, Eq, Debug)]
pub struct AsksForHelp;

pub struct Player<'a> {
    engine: &'a mut dyn Engine,
    /// What the latest SEAL, ANSWER, UNSEAL, WRITE or ENTROPY wrote.
    last: Vec<u8>,
    /// All that was written for the script so far.
    pub written: Vec<u8>,
}

impl<'a> Player<'a> {
    pub fn new(engine: &'a mut dyn Engine) -> Player<'a> {
        Player {
            engine,
            last: Vec::new(),
            written: Vec::new(),
        }
    }

    pub fn play(&mut self, script: &[u8]) -> Result<(), AsksForHelp> {
        for line in lines_of(script) {
            match line {
                Line::TooLong => self.bad_line(&format!("longer than {MOST_LINE_BYTES} bytes")),
                Line::Blank => self.write_line(b""),
                Line::Comment(text) => self.write_line(text),
                Line::Call(text) => {
                    self.write_line(&[b"> ", text].concat());
                    match call_of(text, &self.last) {
                        Ok(call) => self.call(call)?,
                        Err(reason) => self.bad_line(&reason),
                    }
                }
            }
        }
        Ok(())
    }

    fn write_line(&mut self, text: &[u8]) {
        self.written.extend(text);
        self.written.push(b'\n');
    }

    fn say(&mut self, text: &str) {
        self.write_line(text.as_bytes());
    }

    fn bad_line(&mut self, reason: &str) {
        self.say(&format!("bad line: {reason}; nothing changed"));
    }

    fn call(&mut self, call: Call) -> Result<(), AsksForHelp> {
        match call {
            Call::Help => return Err(AsksForHelp),
            Call::Fresh(uid, public_key) => {
                self.engine.fresh(uid, public_key);
                self.say("fresh: done");
                self.say_card();
            }
            Call::Reset => self.reset(),
            Call::Ask(command, room) => drop(self.ask(&command, room)),
            Call::Answer(command, supply, room) => {
                self.answer(&command, &supply, room, None);
                self.say_card();
            }
            Call::Seal(header, data, room) => drop(self.seal(header, &data, room)),
            Call::Unseal(response, room) => drop(self.unseal(&response, room)),
            Call::Send(header, data, supply) => self.send(header, &data, &supply),
            Call::Walk(input) => self.walk(&input),
            Call::Entropy(words, room) => self.entropy(&words, room),
            Call::Write(room) => self.write(room),
            Call::Read(record) => self.read(&record),
            Call::Tap(record, factory) => self.tap(&record, &factory),
            Call::Sound => self.say(if self.engine.sound() { "sound: yes" } else { "sound: no" }),
            Call::Card => self.say_fields("card", &self.engine.card(), CARD_BYTES, card_fields()),
            Call::Set(field, bytes) => self.set(field, &bytes),
            Call::Session => self.say_fields("session", &self.engine.session(), SESSION_BYTES, session_fields()),
            Call::TakeSession(enc_key, mac_key, iv) => self.take_session(&[&enc_key[..], &mac_key, &iv].concat()),
            Call::TakeSessionOfCard => self.take_session(&self.engine.card()[session_place()]),
        }
        Ok(())
    }

    fn say_card(&mut self) {
        self.say(&card_text(&self.engine.card()));
    }

    fn say_fields(&mut self, what: &str, record: &[u8], record_bytes: usize, fields: Vec<Field>) {
        self.say(&format!("{what}: {record_bytes} bytes"));
        for (name, place) in fields {
            self.say(&bytes_text(&format!("  {name}"), &record[place]));
        }
    }

    fn say_refusal(&mut self, name: &str, refusal: u8, least_bytes: usize) {
        self.say(&format!("{name}: {}", refusal_text(refusal, least_bytes)));
    }

    fn reset(&mut self) {
        match self.engine.reset() {
            NOT_REFUSED => self.say("reset: done"),
            refusal => self.say_refusal("reset", refusal, 0),
        }
        self.say_card();
    }

    /// Whether it was not refused.
    fn ask(&mut self, command: &[u8], room: usize) -> bool {
        let mut buffer = vec![UNWRITTEN; room];
        let asked = self.engine.ask(command, &mut buffer);
        if asked.refusal != NOT_REFUSED {
            self.say_refusal("ask", asked.refusal, ASK_ROOM_BYTES);
            return false;
        }
        self.say(&format!("ask: kind {}, {}", asked.kind, supply_text(asked.kind)));
        if asked.kind != 0 {
            self.say(&bytes_text("  data", &buffer[..asked.count]));
        }
        true
    }

    /// What was written, which is the last from now on; none where the call was refused.
    fn told(&mut self, name: &str, told: Told, mut buffer: Vec<u8>, least_bytes: usize) -> Option<Vec<u8>> {
        if told.refusal != NOT_REFUSED {
            self.say_refusal(name, told.refusal, least_bytes);
            return None;
        }
        buffer.truncate(told.count);
        self.say(&bytes_text(&format!("{name}:"), &buffer));
        self.last.clone_from(&buffer);
        Some(buffer)
    }

    fn say_status(&mut self, answer: &Option<Vec<u8>>) {
        if let Some(text) = answer.as_deref().and_then(status_text) {
            self.say(&text);
        }
    }

    /// The data are those that were sealed, where they are known.
    fn answer(&mut self, command: &[u8], supply: &[u8], room: usize, data: Option<&[u8]>) -> Option<Vec<u8>> {
        let mut buffer = vec![UNWRITTEN; room];
        let (told, fault_offset) = self.engine.answer(command, supply, &mut buffer);
        let answer = self.told("answer", told, buffer, ANSWER_ROOM_BYTES);
        self.say_status(&answer);
        if fault_offset != NO_FAULT {
            self.say(&fault_text(fault_offset, data));
        }
        answer
    }

    fn seal(&mut self, header: [u8; HEADER_BYTES], data: &[u8], room: usize) -> Option<Vec<u8>> {
        let mut buffer = vec![UNWRITTEN; room];
        let told = self.engine.seal(header, data, &mut buffer);
        self.told("seal", told, buffer, SEAL_ROOM_BYTES)
    }

    fn unseal(&mut self, response: &[u8], room: usize) -> Option<Vec<u8>> {
        let mut buffer = vec![UNWRITTEN; room];
        let told = self.engine.unseal(response, &mut buffer);
        let opened = self.told("unseal", told, buffer, UNSEAL_ROOM_BYTES);
        self.say_status(&opened);
        opened
    }

    /// SEAL, ASK, ANSWER and UNSEAL, and the words of a phrase. Where ASK or ANSWER is refused the session is again what it was.
    fn send(&mut self, header: [u8; HEADER_BYTES], data: &[u8], supply: &[u8]) {
        let session = self.engine.session();
        let Some(command) = self.seal(header, data, SEAL_ROOM_BYTES) else {
            return;
        };
        let asked = self.ask(&command, ASK_ROOM_BYTES);
        let answer = asked
            .then(|| self.answer(&command, supply, ANSWER_ROOM_BYTES, Some(data)))
            .flatten();
        let Some(answer) = answer else {
            self.engine.put_session(&session);
            self.say("  session: as before");
            return;
        };
        let opened = self.unseal(&answer, UNSEAL_ROOM_BYTES);
        let words = opened.as_deref().and_then(|opened| opened.strip_suffix(&SUCCESS.to_be_bytes()));
        if let Some(words) = words.filter(|_| header[1] == GENERATE_MNEMONIC) {
            self.say(&words_text(words));
        }
        self.say_card();
    }

    fn walk(&mut self, input: &[u8]) {
        let walked = self.engine.walk(input);
        match walked.refusal {
            NOT_REFUSED => self.say(&format!("walk: {}", count_text(walked.count))),
            refusal => {
                self.say_refusal("walk", refusal, 0);
                self.say(&fault_text(walked.fault_offset, Some(input)));
            }
        }
    }

    fn entropy(&mut self, words: &[u8], room: usize) {
        let mut buffer = vec![UNWRITTEN; room];
        let told = self.engine.entropy(words, &mut buffer);
        self.told("entropy", told, buffer, ENTROPY_ROOM_BYTES);
    }

    fn write(&mut self, room: usize) {
        let mut buffer = vec![UNWRITTEN; room];
        let told = self.engine.write(&mut buffer);
        self.told("write", told, buffer, WRITE_ROOM_BYTES);
    }

    fn read(&mut self, record: &[u8]) {
        match self.engine.read(record) {
            NOT_REFUSED => self.say("read: done"),
            refusal => self.say(&format!("read: {}, the card is FRESH of zeros", refusal_text(refusal, 0))),
        }
        self.say_card();
    }

    /// The part is shown, and is not the last bytes: nothing was written.
    fn tap(&mut self, record: &[u8], factory: &[u8]) {
        let tapped = self.engine.tap(record, factory);
        let (from, bytes) = match tapped.source {
            Source::None => {
                self.say(&format!("tap: {}, the part is empty", refusal_text(tapped.refusal, 0)));
                return;
            }
            Source::Record => ("record", record),
            Source::Factory => ("factory", factory),
        };
        let part = &bytes[tapped.offset..][..tapped.length];
        self.say(&bytes_text(&format!("tap: {from}, offset {},", tapped.offset), part));
    }

    fn set(&mut self, (name, place): Field, bytes: &[u8]) {
        let mut card = self.engine.card();
        card[place].copy_from_slice(bytes);
        self.engine.put_card(&card);
        self.say(&bytes_text(&format!("set: {name}"), bytes));
        self.say_card();
    }

    fn take_session(&mut self, session: &[u8]) {
        self.engine.put_session(session);
        self.say("session: taken");
    }
}
