//! The implementations that are measured: the library, and the model over either cipher, each with a card and a terminal's session of its
//! own. Lengths and counts are in bytes.

use outside::ffi::treadlewisp::{self, Told, CARD_BYTES, SESSION_BYTES};
use outside::model::message::HEADER_BYTES;

/// Card and terminal's session, as the bytes that a caller lends.
#[derive(Clone, PartialEq, Eq)]
pub struct State {
    pub card: [u8; CARD_BYTES],
    pub session: [u8; SESSION_BYTES],
}

/// An implementation. READ tells a count of 0. No call that is measured has a fault offset, so that none is told.
pub trait Side {
    fn begin(&mut self, state: &State);
    fn state(&self) -> State;
    fn seal(&mut self, header: &[u8; HEADER_BYTES], data: &[u8], buffer: &mut [u8]) -> Told;
    fn answer(&mut self, command: &[u8], buffer: &mut [u8]) -> Told;
    fn unseal(&mut self, response: &[u8], buffer: &mut [u8]) -> Told;
    fn write(&mut self, buffer: &mut [u8]) -> Told;
    fn read(&mut self, record: &[u8]) -> Told;
    fn walk(&mut self, input: &[u8]) -> Told;
}

/// The library, which changes card and session where they lie.
pub struct Library(State);

impl Library {
    pub fn new(state: &State) -> Library {
        Library(state.clone())
    }
}

impl Side for Library {
    fn begin(&mut self, state: &State) {
        self.0 = state.clone();
    }

    fn state(&self) -> State {
        self.0.clone()
    }

    fn seal(&mut self, header: &[u8; HEADER_BYTES], data: &[u8], buffer: &mut [u8]) -> Told {
        treadlewisp::seal(&mut self.0.session, header, data, buffer)
    }

    fn answer(&mut self, command: &[u8], buffer: &mut [u8]) -> Told {
        let answered = treadlewisp::answer(&mut self.0.card, command, &[], buffer);
        Told {
            refusal: answered.refusal,
            count: answered.count,
        }
    }

    fn unseal(&mut self, response: &[u8], buffer: &mut [u8]) -> Told {
        treadlewisp::unseal(&mut self.0.session, response, buffer)
    }

    fn write(&mut self, buffer: &mut [u8]) -> Told {
        treadlewisp::write(&self.0.card, buffer)
    }

    fn read(&mut self, record: &[u8]) -> Told {
        Told {
            refusal: treadlewisp::read(&mut self.0.card, record),
            count: 0,
        }
    }

    fn walk(&mut self, input: &[u8]) -> Told {
        let walked = treadlewisp::walk(input);
        Told {
            refusal: walked.refusal,
            count: walked.count,
        }
    }
}
