//! What is measured: works of many calls, whose inputs are made beforehand from a seed. Every card is initialised, in stage 2, with all slots
//! filled, both paths and the tap record full, so its record has 773 bytes. Lengths are in bytes.

use crate::model_side::Model;
use crate::sides::{Side, State};
use outside::ffi::treadlewisp::{card_bytes, card_of, session_bytes, Told};
use outside::model::card::*;
use outside::model::engine::{ANSWER_ROOM_BYTES, SEAL_ROOM_BYTES, UNSEAL_ROOM_BYTES, WRITE_ROOM_BYTES};
use outside::model::message::{seal_response, HEADER_BYTES, MIN_FIELD_BYTES};
use outside::model::record::record_of;
use outside::model::status::{NOT_REFUSED, SUCCESS};
use outside::random::choice::{array, digits};
use outside::random::Random;
use std::rc::Rc;

const GET_STATUS: Header = [0x80, 0xf2, 0x00, 0x00];
const VERIFY: Header = [0x80, 0x20, 0x00, 0x00];
/// A template of two fields, for WALK.
const TEMPLATE: [u8; 16] = [0xa1, 14, 0x80, 4, 1, 2, 3, 4, 0x81, 6, 1, 2, 3, 4, 5, 6];

type Header = [u8; HEADER_BYTES];

/// One call with its inputs. An exchange is SEAL, ANSWER and UNSEAL, one after the other.
pub enum Call {
    Seal { header: Header, data: Vec<u8> },
    Answer { command: Vec<u8> },
    Unseal { response: Vec<u8> },
    Exchange { header: Header, data: Vec<u8> },
    Write,
    Read { record: Vec<u8> },
    Walk { input: Rc<[u8]> },
}

/// Calls of one kind, each with its own inputs, that are made one after the other.
pub struct Work {
    pub name: String,
    /// The length that each call works on: data, plaintext, record or input.
    pub bytes: usize,
    pub calls: Vec<Call>,
}

impl Call {
    /// The buffer that the call is given.
    pub fn room_bytes(&self) -> usize {
        match self {
            Call::Seal { .. } => SEAL_ROOM_BYTES,
            Call::Answer { .. } => ANSWER_ROOM_BYTES,
            Call::Unseal { .. } => UNSEAL_ROOM_BYTES,
            Call::Exchange { .. } => SEAL_ROOM_BYTES + ANSWER_ROOM_BYTES + UNSEAL_ROOM_BYTES,
            Call::Write => WRITE_ROOM_BYTES,
            Call::Read { .. } | Call::Walk { .. } => 0,
        }
    }

    pub fn make(&self, side: &mut dyn Side, buffer: &mut [u8]) -> Told {
        match self {
            Call::Seal { header, data } => side.seal(header, data, buffer),
            Call::Answer { command } => side.answer(command, buffer),
            Call::Unseal { response } => side.unseal(response, buffer),
            Call::Exchange { header, data } => exchange(side, header, data, buffer),
            Call::Write => side.write(buffer),
            Call::Read { record } => side.read(record),
            Call::Walk { input } => side.walk(input),
        }
    }

    /// Whether the call did what it is meant to: no refusal, a sealed answer, success inside it, a whole record.
    pub fn is_done(&self, told: Told, buffer: &[u8]) -> bool {
        let as_meant = match self {
            Call::Seal { data, .. } => told.count > data.len(),
            Call::Answer { .. } => told.count >= MIN_FIELD_BYTES + 2,
            Call::Unseal { .. } => told.count >= 2,
            Call::Exchange { .. } => buffer[SEAL_ROOM_BYTES + ANSWER_ROOM_BYTES..][..told.count].ends_with(&SUCCESS.to_be_bytes()),
            Call::Write => told.count == WRITE_ROOM_BYTES,
            Call::Read { record } => record.len() == WRITE_ROOM_BYTES,
            Call::Walk { input } => told.count == 2 * input.len() / TEMPLATE.len(),
        };
        told.refusal == NOT_REFUSED && as_meant
    }
}

/// A refusal on the way shows at the end: what was refused before wrote nothing that opens.
fn exchange(side: &mut dyn Side, header: &Header, data: &[u8], buffer: &mut [u8]) -> Told {
    let (command, after) = buffer.split_at_mut(SEAL_ROOM_BYTES);
    let (response, plaintext) = after.split_at_mut(ANSWER_ROOM_BYTES);
    let sealed = side.seal(header, data, command);
    let answered = side.answer(&command[..sealed.count], response);
    side.unseal(&response[..answered.count], plaintext)
}

fn full_card(random: &mut Random) -> Card {
    let mut card = Card::fresh(array(random), array(random));
    card.initialised = YES;
    card.pin = digits(random);
    card.puk = digits(random);
    card.pin_tries = PIN_TRIES;
    card.puk_tries = PUK_TRIES;
    card.pairing_secret = array(random);
    for slot in &mut card.slots {
        (slot.filled, slot.key) = (YES, array(random));
    }
    card.key_kind = EXTENDED_KEY;
    card.key_uid = array(random);
    card.current_path = Path::of(&array::<PATH_BYTES>(random));
    card.pinless_path = Path::of(&array::<PATH_BYTES>(random));
    card.stage = AUTHENTICATED;
    card.session = Session {
        enc_key: array(random),
        mac_key: array(random),
        iv: array(random),
    };
    let mut tap: [u8; TAP_BYTES] = array(random);
    tap[..TAP_COUNT_BYTES].copy_from_slice(&((TAP_BYTES - TAP_COUNT_BYTES) as u16).to_be_bytes());
    card.tap = TapRecord::of(&tap);
    card
}

/// A full card, and a terminal at the other end of its channel.
pub fn start(random: &mut Random) -> State {
    let card = full_card(random);
    State {
        card: card_bytes(&card).try_into().expect("the bytes of a card"),
        session: session_bytes(&card.session).try_into().expect("the bytes of a session"),
    }
}

fn work(name: String, bytes: usize, calls: usize, call: impl FnMut(usize) -> Call) -> Work {
    Work {
        name,
        bytes,
        calls: (0..calls).map(call).collect(),
    }
}

pub fn seal(random: &mut Random, data_bytes: usize, calls: usize) -> Work {
    let name = format!("SEAL, {data_bytes} bytes of data");
    work(name, data_bytes, calls, |_| Call::Seal {
        header: array(random),
        data: random.bytes(data_bytes),
    })
}

/// UNSEAL of responses that the card seals one after the other.
pub fn unseal(random: &mut Random, state: &State, plaintext_bytes: usize, calls: usize) -> Work {
    let mut session = card_of(&state.card).session;
    let name = format!("UNSEAL, {plaintext_bytes} bytes inside");
    work(name, plaintext_bytes, calls, |_| {
        let field = seal_response(&mut session, &random.bytes(plaintext_bytes));
        Call::Unseal {
            response: [&field[..], &SUCCESS.to_be_bytes()].concat(),
        }
    })
}

pub fn get_status(calls: usize) -> Work {
    work("GET STATUS, whole exchange".into(), 0, calls, |_| Call::Exchange {
        header: GET_STATUS,
        data: Vec::new(),
    })
}

/// VERIFY with the right PIN.
pub fn verify(state: &State, calls: usize) -> Work {
    let pin = card_of(&state.card).pin;
    work("VERIFY, whole exchange".into(), PIN_BYTES, calls, |_| Call::Exchange {
        header: VERIFY,
        data: pin.to_vec(),
    })
}

/// The ANSWER calls alone of a work of exchanges: their commands, as the model's terminal seals them.
pub fn answers(state: &State, exchanges: &Work, name: &str) -> Work {
    let mut model = Model::new(state);
    let command_of = |call: &Call| {
        let mut buffer = vec![0; call.room_bytes()];
        call.make(&mut model, &mut buffer);
        let command_bytes = HEADER_BYTES + 1 + buffer[HEADER_BYTES] as usize;
        Call::Answer {
            command: buffer[..command_bytes].to_vec(),
        }
    };
    Work {
        name: name.into(),
        bytes: exchanges.bytes,
        calls: exchanges.calls.iter().map(command_of).collect(),
    }
}

pub fn write(calls: usize) -> Work {
    let name = format!("WRITE, a record of {WRITE_ROOM_BYTES} bytes");
    work(name, WRITE_ROOM_BYTES, calls, |_| Call::Write)
}

pub fn read(random: &mut Random, calls: usize) -> Work {
    let name = format!("READ, a record of {WRITE_ROOM_BYTES} bytes");
    work(name, WRITE_ROOM_BYTES, calls, |_| Call::Read {
        record: record_of(&full_card(random)),
    })
}

/// WALK of templates of 16 bytes, one after the other.
pub fn walk(input_bytes: usize, calls: usize) -> Work {
    let input: Rc<[u8]> = TEMPLATE.repeat(input_bytes / TEMPLATE.len()).into();
    work(format!("WALK, {input_bytes} bytes"), input_bytes, calls, |_| Call::Walk {
        input: input.clone(),
    })
}
