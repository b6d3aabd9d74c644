//! The two engines that a script can be played on: the plain model of the rules, and the library, whose card and session lie as their bytes
//! and are changed in place. Each holds one card and the terminal's session; lengths and counts are in bytes.

use outside::ciphers::plain::KEY_BYTES;
use outside::ffi::treadlewisp::{self, CARD_BYTES, SESSION_BYTES};
use outside::model::card::{Card, Session, POINT_BYTES, UID_BYTES};
use outside::model::engine::{self, Asked, Source, Tapped, Told, Walked};
use outside::model::message::HEADER_BYTES;

pub trait Engine {
    /// The card as its 852 bytes, and the session as its 80 bytes.
    fn card(&self) -> Vec<u8>;
    fn put_card(&mut self, card: &[u8]);
    fn session(&self) -> Vec<u8>;
    fn put_session(&mut self, session: &[u8]);

    fn fresh(&mut self, uid: [u8; UID_BYTES], public_key: [u8; POINT_BYTES]);
    fn sound(&self) -> bool;
    /// RESET's refusal.
    fn reset(&mut self) -> u8;
    fn ask(&self, command: &[u8], buffer: &mut [u8]) -> Asked;
    /// What ANSWER tells, and its number.
    fn answer(&mut self, command: &[u8], supply: &[u8], buffer: &mut [u8]) -> (Told, usize);
    fn seal(&mut self, header: [u8; HEADER_BYTES], data: &[u8], buffer: &mut [u8]) -> Told;
    fn unseal(&mut self, response: &[u8], buffer: &mut [u8]) -> Told;
    fn walk(&self, input: &[u8]) -> Walked;
    fn write(&self, buffer: &mut [u8]) -> Told;
    /// READ's refusal.
    fn read(&mut self, record: &[u8]) -> u8;
    fn tap(&self, record: &[u8], factory: &[u8]) -> Tapped;
    fn entropy(&self, words: &[u8], buffer: &mut [u8]) -> Told;
}

pub struct Model {
    card: Card,
    session: Session,
}

impl Model {
    /// FRESH of zeros and a session of zeros.
    pub fn new() -> Model {
        Model {
            card: Card::fresh([0; UID_BYTES], [0; POINT_BYTES]),
            session: Session::ZERO,
        }
    }
}

impl Engine for Model {
    fn card(&self) -> Vec<u8> {
        treadlewisp::card_bytes(&self.card)
    }

    fn put_card(&mut self, card: &[u8]) {
        self.card = treadlewisp::card_of(card);
    }

    fn session(&self) -> Vec<u8> {
        treadlewisp::session_bytes(&self.session)
    }

    fn put_session(&mut self, session: &[u8]) {
        let (enc_key, after_enc_key) = session.split_at(KEY_BYTES);
        let (mac_key, iv) = after_enc_key.split_at(KEY_BYTES);
        self.session.enc_key.copy_from_slice(enc_key);
        self.session.mac_key.copy_from_slice(mac_key);
        self.session.iv.copy_from_slice(iv);
    }

    fn fresh(&mut self, uid: [u8; UID_BYTES], public_key: [u8; POINT_BYTES]) {
        self.card = Card::fresh(uid, public_key);
    }

    fn sound(&self) -> bool {
        self.card.is_sound()
    }

    fn reset(&mut self) -> u8 {
        engine::reset(&mut self.card)
    }

    fn ask(&self, command: &[u8], buffer: &mut [u8]) -> Asked {
        engine::ask(&self.card, command, buffer)
    }

    fn answer(&mut self, command: &[u8], supply: &[u8], buffer: &mut [u8]) -> (Told, usize) {
        let answered = engine::answer(&mut self.card, command, supply, buffer);
        (answered.told, answered.fault_offset)
    }

    fn seal(&mut self, header: [u8; HEADER_BYTES], data: &[u8], buffer: &mut [u8]) -> Told {
        engine::seal(&mut self.session, header, data, buffer)
    }

    fn unseal(&mut self, response: &[u8], buffer: &mut [u8]) -> Told {
        engine::unseal(&mut self.session, response, buffer)
    }

    fn walk(&self, input: &[u8]) -> Walked {
        engine::walk(input)
    }

    fn write(&self, buffer: &mut [u8]) -> Told {
        engine::write(&self.card, buffer)
    }

    fn read(&mut self, record: &[u8]) -> u8 {
        let (refusal, card) = engine::read(record);
        self.card = card;
        refusal
    }

    fn tap(&self, record: &[u8], factory: &[u8]) -> Tapped {
        engine::tap(record, factory)
    }

    fn entropy(&self, words: &[u8], buffer: &mut [u8]) -> Told {
        engine::entropy(words, buffer)
    }
}

pub struct Library {
    card: [u8; CARD_BYTES],
    session: [u8; SESSION_BYTES],
}

impl Library {
    /// FRESH of zeros and a session of zeros.
    pub fn new() -> Library {
        let mut library = Library {
            card: [0; CARD_BYTES],
            session: [0; SESSION_BYTES],
        };
        library.fresh([0; UID_BYTES], [0; POINT_BYTES]);
        library
    }
}

fn told(library: treadlewisp::Told) -> Told {
    Told {
        refusal: library.refusal,
        count: library.count,
    }
}

impl Engine for Library {
    fn card(&self) -> Vec<u8> {
        self.card.to_vec()
    }

    fn put_card(&mut self, card: &[u8]) {
        self.card.copy_from_slice(card);
    }

    fn session(&self) -> Vec<u8> {
        self.session.to_vec()
    }

    fn put_session(&mut self, session: &[u8]) {
        self.session.copy_from_slice(session);
    }

    fn fresh(&mut self, uid: [u8; UID_BYTES], public_key: [u8; POINT_BYTES]) {
        treadlewisp::fresh(&mut self.card, &uid, &public_key);
    }

    fn sound(&self) -> bool {
        treadlewisp::sound(&self.card) == 1
    }

    fn reset(&mut self) -> u8 {
        treadlewisp::reset(&mut self.card)
    }

    fn ask(&self, command: &[u8], buffer: &mut [u8]) -> Asked {
        let treadlewisp::Asked { refusal, kind, count } = treadlewisp::ask(&self.card, command, buffer);
        Asked { refusal, kind, count }
    }

    fn answer(&mut self, command: &[u8], supply: &[u8], buffer: &mut [u8]) -> (Told, usize) {
        let treadlewisp::Answered {
            refusal,
            count,
            fault_offset,
        } = treadlewisp::answer(&mut self.card, command, supply, buffer);
        (Told { refusal, count }, fault_offset)
    }

    fn seal(&mut self, header: [u8; HEADER_BYTES], data: &[u8], buffer: &mut [u8]) -> Told {
        told(treadlewisp::seal(&mut self.session, &header, data, buffer))
    }

    fn unseal(&mut self, response: &[u8], buffer: &mut [u8]) -> Told {
        told(treadlewisp::unseal(&mut self.session, response, buffer))
    }

    fn walk(&self, input: &[u8]) -> Walked {
        let treadlewisp::Walked {
            refusal,
            count,
            fault_offset,
        } = treadlewisp::walk(input);
        Walked {
            refusal,
            count,
            fault_offset,
        }
    }

    fn write(&self, buffer: &mut [u8]) -> Told {
        told(treadlewisp::write(&self.card, buffer))
    }

    fn read(&mut self, record: &[u8]) -> u8 {
        treadlewisp::read(&mut self.card, record)
    }

    fn tap(&self, record: &[u8], factory: &[u8]) -> Tapped {
        let tapped = treadlewisp::tap(record, factory);
        Tapped {
            refusal: tapped.refusal,
            source: match tapped.source {
                0 => Source::None,
                1 => Source::Record,
                2 => Source::Factory,
                other => panic!("no rule has the source {other}"),
            },
            offset: tapped.offset,
            length: tapped.length,
        }
    }

    fn entropy(&self, words: &[u8], buffer: &mut [u8]) -> Told {
        told(treadlewisp::entropy(words, buffer))
    }
}
