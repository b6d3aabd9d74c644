//! The model as an implementation that is measured. The benchmark has this file twice, like the model itself: beside the byte-wise cipher and
//! beside the one by word tables. Lengths and counts are in bytes.

use super::model::card::{Card, Session};
use super::model::engine;
use super::model::layout::{card_bytes, card_of, session_bytes, session_of};
use super::model::message::HEADER_BYTES;
use crate::sides::{Side, State};
use outside::ffi::treadlewisp::Told;

pub struct Model {
    card: Card,
    session: Session,
}

impl Model {
    pub fn new(state: &State) -> Model {
        Model {
            card: card_of(&state.card),
            session: session_of(&state.session),
        }
    }
}

fn told(told: engine::Told) -> Told {
    Told {
        refusal: told.refusal,
        count: told.count,
    }
}

impl Side for Model {
    fn begin(&mut self, state: &State) {
        *self = Model::new(state);
    }

    fn state(&self) -> State {
        State {
            card: card_bytes(&self.card).try_into().expect("the bytes of a card"),
            session: session_bytes(&self.session).try_into().expect("the bytes of a session"),
        }
    }

    fn seal(&mut self, header: &[u8; HEADER_BYTES], data: &[u8], buffer: &mut [u8]) -> Told {
        told(engine::seal(&mut self.session, *header, data, buffer))
    }

    fn answer(&mut self, command: &[u8], buffer: &mut [u8]) -> Told {
        told(engine::answer(&mut self.card, command, &[], buffer).told)
    }

    fn unseal(&mut self, response: &[u8], buffer: &mut [u8]) -> Told {
        told(engine::unseal(&mut self.session, response, buffer))
    }

    fn write(&mut self, buffer: &mut [u8]) -> Told {
        told(engine::write(&self.card, buffer))
    }

    fn read(&mut self, record: &[u8]) -> Told {
        let (refusal, card) = engine::read(record);
        self.card = card;
        Told { refusal, count: 0 }
    }

    fn walk(&mut self, input: &[u8]) -> Told {
        let walked = engine::walk(input);
        Told {
            refusal: walked.refusal,
            count: walked.count,
        }
    }
}
