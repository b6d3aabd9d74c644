//! Every operation on the model and on the library at once: results, next state, the whole buffer and the bytes around it are held to each
//! other, and the first difference ends the run. Lengths are in bytes.

use crate::faults::{first_fault, wanted_number};
use crate::guarded::Guarded;
use crate::may_occur::{lr_of, name_of, Operation};
use crate::standing::{standing_after, standing_of, Standing};
use crate::tally::Tally;
use crate::word_numbers::entropy_of;
use outside::ffi::treadlewisp::{self, CARD_BYTES};
use outside::model::card::{Card, Session, POINT_BYTES, UID_BYTES};
use outside::model::commands::{supply_of_kind, Name, FOR_MNEMONIC};
use outside::model::engine::{self, Answered, Asked, Tapped, Told, Walked, ASK_ROOM_BYTES};
use outside::model::message::HEADER_BYTES;
use outside::model::status::{NOT_REFUSED, SHORT_BUFFER, SUCCESS, UNSOUND};
use outside::random::Random;
use std::hint::black_box;

pub fn hex(bytes: &[u8]) -> String {
    bytes.iter().map(|b| format!("{b:02x}")).collect()
}

/// One call: its operation and inputs, those first that it may not change.
struct Call<'a> {
    operation: Operation,
    inputs: Vec<(&'static str, &'a [u8])>,
}

pub struct Both {
    /// Where the guarded bytes begin: drawn apart from the walks, so that a walk does not depend on it.
    alignment: Random,
    pub tally: Tally,
    /// Which walk is on, for the report of a difference.
    pub walk: String,
}

impl Both {
    pub fn new(seed: u64) -> Both {
        Both {
            alignment: Random::new(!seed),
            tally: Tally::default(),
            walk: String::new(),
        }
    }

    fn guarded(&mut self, content: &[u8]) -> Guarded {
        Guarded::new(&mut self.alignment, content)
    }

    fn differ(&self, call: &Call, what: &str, model: &str, library: &str) -> ! {
        println!(
            "DIFFERENCE in {}, call {}: {:?}, {what}",
            self.walk,
            self.tally.calls(),
            call.operation
        );
        println!("  model    {model}");
        println!("  library  {library}");
        for (name, bytes) in &call.inputs {
            println!("  {name}, {} bytes: {}", bytes.len(), hex(bytes));
        }
        std::process::exit(1);
    }

    fn same_result(&self, call: &Call, model: (u8, u8, usize), library: (u8, u8, usize)) {
        if model != library {
            let shown = |r: (u8, u8, usize)| format!("refusal {}, kind {}, count {}", r.0, r.1, r.2);
            self.differ(call, "the result", &shown(model), &shown(library));
        }
    }

    /// The fault offset of the model and of the library, beside what is wanted by a way of its own.
    fn same_offset(&self, call: &Call, wanted: usize, model: usize, library: usize) {
        if model != wanted || library != wanted {
            self.differ(
                call,
                &format!("the fault offset, which is {wanted}"),
                &model.to_string(),
                &library.to_string(),
            );
        }
    }

    /// What ENTROPY gave, on both, beside what is wanted by a way of its own.
    fn same_entropy(&self, call: &Call, wanted: Result<Vec<u8>, u8>, told: Told, buffer: &[u8]) {
        let given = match told.refusal {
            NOT_REFUSED => Ok(buffer[..told.count].to_vec()),
            refusal => Err(refusal),
        };
        if given != wanted {
            let given = format!("{given:x?}");
            self.differ(call, &format!("the entropy or its refusal, which is {wanted:x?}"), &given, &given);
        }
    }

    /// The model's bytes and those that the library left. They are read through the black box: otherwise Rust may take it for
    /// granted that bytes which a call only borrows did not change, and that is what is tested here.
    fn same_bytes(&self, call: &Call, what: &str, model: &[u8], library: &Guarded) {
        let library = black_box(library);
        if model != library.content() {
            self.differ(call, what, &hex(model), &hex(library.content()));
        }
        if !library.is_guarded() {
            let what = format!("a byte around {what} was changed");
            self.differ(call, &what, "", &hex(&library.bytes));
        }
    }

    /// The first inputs of the call, as the library was given them, are as they were.
    fn unchanged(&self, call: &Call, given: &[&Guarded]) {
        for ((name, bytes), given) in call.inputs.iter().zip(given) {
            self.same_bytes(call, name, bytes, given);
        }
    }

    pub fn fresh(&mut self, uid: [u8; UID_BYTES], public_key: [u8; POINT_BYTES]) -> Card {
        let card = Card::fresh(uid, public_key);
        let garbage = self.alignment.bytes(CARD_BYTES);
        let mut lent = self.guarded(&garbage);
        let (given_uid, given_key) = (self.guarded(&uid), self.guarded(&public_key));
        treadlewisp::fresh(lent.slice(), given_uid.array(), given_key.array());
        let call = Call {
            operation: Operation::Fresh,
            inputs: vec![("uid", &uid), ("public key", &public_key)],
        };
        self.same_bytes(&call, "the card", &treadlewisp::card_bytes(&card), &lent);
        self.unchanged(&call, &[&given_uid, &given_key]);
        self.tally.operation(Operation::Fresh, 0);
        card
    }

    pub fn sound(&mut self, card: &Card) -> bool {
        let before = treadlewisp::card_bytes(card);
        let lent = self.guarded(&before);
        let library = treadlewisp::sound(lent.content());
        let model = card.is_sound();
        let call = Call {
            operation: Operation::Sound,
            inputs: vec![("card", &before)],
        };
        self.same_result(&call, (0, u8::from(model), 0), (0, library, 0));
        self.unchanged(&call, &[&lent]);
        self.tally.operation(Operation::Sound, 0);
        model
    }

    pub fn reset(&mut self, card: &mut Card) -> u8 {
        let before = *card;
        let before_bytes = treadlewisp::card_bytes(card);
        let mut lent = self.guarded(&before_bytes);
        let library = treadlewisp::reset(lent.slice());
        let model = engine::reset(card);
        let call = Call {
            operation: Operation::Reset,
            inputs: vec![("card", &before_bytes)],
        };
        self.same_result(&call, (model, 0, 0), (library, 0, 0));
        self.same_bytes(&call, "the card", &treadlewisp::card_bytes(card), &lent);
        self.tally.operation(Operation::Reset, model);
        self.tally.card(Operation::Reset, model, &before);
        self.next_card_sound(&call, model, &lent);
        if model == 0 {
            self.stands(&call, card, Standing::Closed);
        }
        model
    }

    pub fn ask(&mut self, card: &Card, command: &[u8], buffer: &mut [u8]) -> Asked {
        let before = treadlewisp::card_bytes(card);
        let (lent, given) = (self.guarded(&before), self.guarded(command));
        let mut room = self.guarded(buffer);
        let library = treadlewisp::ask(lent.content(), given.content(), room.slice());
        let model = engine::ask(card, command, buffer);
        let call = Call {
            operation: Operation::Ask,
            inputs: vec![("card", &before), ("command", command), ("buffer as the model left it", buffer)],
        };
        let of_model = (model.refusal, model.kind, model.count);
        self.same_result(&call, of_model, (library.refusal, library.kind, library.count));
        self.same_bytes(&call, "the buffer", buffer, &room);
        self.unchanged(&call, &[&lent, &given]);
        self.tally.operation(Operation::Ask, model.refusal);
        self.tally.room(Operation::Ask, buffer.len());
        self.tally.card(Operation::Ask, model.refusal, card);
        self.tally.kind(card, model);
        model
    }

    pub fn answer(&mut self, card: &mut Card, command: &[u8], supply: &[u8], buffer: &mut [u8]) -> Answered {
        let before = *card;
        let before_bytes = treadlewisp::card_bytes(card);
        let mut lent = self.guarded(&before_bytes);
        let (given, supplied) = (self.guarded(command), self.guarded(supply));
        let mut room = self.guarded(buffer);
        let library = treadlewisp::answer(lent.slice(), given.content(), supplied.content(), room.slice());
        let model = engine::answer(card, command, supply, buffer);
        let call = Call {
            operation: Operation::Answer,
            inputs: vec![
                ("command", command),
                ("supply", supply),
                ("card", &before_bytes),
                ("buffer as the model left it", buffer),
            ],
        };
        let of_model = (model.told.refusal, 0, model.told.count);
        self.same_result(&call, of_model, (library.refusal, 0, library.count));
        let wanted = wanted_number(&before, command, model.told.refusal);
        self.same_offset(&call, wanted, model.fault_offset, library.fault_offset);
        self.same_bytes(&call, "the card", &treadlewisp::card_bytes(card), &lent);
        self.same_bytes(&call, "the buffer", buffer, &room);
        self.unchanged(&call, &[&given, &supplied]);
        self.tally_answer(&before, command, supply, buffer.len(), &model);
        self.next_card_sound(&call, model.told.refusal, &lent);
        self.passes(&call, &before, command, &model, card);
        model
    }

    /// The card that an answer left stands as the table says; a refused call left the card as it was.
    fn passes(&mut self, call: &Call, before: &Card, command: &[u8], answered: &Answered, after: &Card) {
        let Some(status) = answered.status else {
            if after != before {
                self.differ(call, "a refused call changed the card", "", "");
            }
            return;
        };
        let name = name_of(command);
        let Some(stood) = standing_of(before) else {
            self.differ(call, "a verified PIN outside stage 2 was taken for sound", "", "");
        };
        let sets_tap = name == Some(Name::SetNdef) && status == SUCCESS;
        if after.tap != before.tap && !sets_tap {
            self.differ(call, "another answer than SET NDEF's success changed the tap record", "", "");
        }
        let stands = standing_after(stood, name, status, answered.sealed);
        self.stands(call, after, stands);
        self.tally.passage(stood, stands, (name, status, answered.sealed));
    }

    fn stands(&self, call: &Call, card: &Card, wanted: Standing) {
        let stands = standing_of(card);
        if stands != Some(wanted) {
            let got = format!("both left it {stands:?}");
            self.differ(call, &format!("by the table the card is then {wanted:?}"), &got, &got);
        }
    }

    /// The card that a call left, where it was not refused, is sound by the library's own word.
    fn next_card_sound(&self, call: &Call, refusal: u8, card: &Guarded) {
        if refusal == 0 {
            self.same_result(call, (0, 1, 0), (0, treadlewisp::sound(card.content()), 0));
        }
    }

    fn tally_answer(&mut self, before: &Card, command: &[u8], supply: &[u8], room_bytes: usize, model: &Answered) {
        let refusal = model.told.refusal;
        self.tally.operation(Operation::Answer, refusal);
        self.tally.room(Operation::Answer, room_bytes);
        self.tally.card(Operation::Answer, refusal, before);
        self.tally.answer(before, command, model);
        if refusal != UNSOUND && refusal != SHORT_BUFFER {
            let kind = engine::ask(before, command, &mut [0; ASK_ROOM_BYTES]).kind;
            if kind != 0 {
                self.tally.supply(&supply_of_kind(kind, command[2]), supply);
            }
            if kind == FOR_MNEMONIC {
                self.tally.generated(command[2], refusal);
            }
        }
    }

    fn told(&self, call: &Call, model: Told, library: treadlewisp::Told) {
        self.same_result(call, (model.refusal, 0, model.count), (library.refusal, 0, library.count));
    }

    pub fn seal(&mut self, session: &mut Session, header: [u8; HEADER_BYTES], data: &[u8], buffer: &mut [u8]) -> Told {
        let before = treadlewisp::session_bytes(session);
        let mut lent = self.guarded(&before);
        let (given_header, given) = (self.guarded(&header), self.guarded(data));
        let mut room = self.guarded(buffer);
        let library = treadlewisp::seal(lent.slice(), given_header.array(), given.content(), room.slice());
        let model = engine::seal(session, header, data, buffer);
        let call = Call {
            operation: Operation::Seal,
            inputs: vec![
                ("header", &header),
                ("data", data),
                ("session", &before),
                ("buffer as the model left it", buffer),
            ],
        };
        self.told(&call, model, library);
        self.same_bytes(&call, "the session", &treadlewisp::session_bytes(session), &lent);
        self.same_bytes(&call, "the buffer", buffer, &room);
        self.unchanged(&call, &[&given_header, &given]);
        self.tally.operation(Operation::Seal, model.refusal);
        self.tally.room(Operation::Seal, buffer.len());
        model
    }

    pub fn unseal(&mut self, session: &mut Session, response: &[u8], buffer: &mut [u8]) -> Told {
        let before = treadlewisp::session_bytes(session);
        let lr = lr_of(session, response);
        let mut lent = self.guarded(&before);
        let given = self.guarded(response);
        let mut room = self.guarded(buffer);
        let library = treadlewisp::unseal(lent.slice(), given.content(), room.slice());
        let model = engine::unseal(session, response, buffer);
        let call = Call {
            operation: Operation::Unseal,
            inputs: vec![
                ("response", response),
                ("session", &before),
                ("buffer as the model left it", buffer),
            ],
        };
        self.told(&call, model, library);
        self.same_bytes(&call, "the session", &treadlewisp::session_bytes(session), &lent);
        self.same_bytes(&call, "the buffer", buffer, &room);
        self.unchanged(&call, &[&given]);
        self.tally.operation(Operation::Unseal, model.refusal);
        self.tally.response(lr, model.refusal);
        self.tally.room(Operation::Unseal, buffer.len());
        model
    }

    pub fn walk(&mut self, input: &[u8]) -> Walked {
        let given = self.guarded(input);
        let library = treadlewisp::walk(given.content());
        let model = engine::walk(input);
        let call = Call {
            operation: Operation::Walk,
            inputs: vec![("input", input)],
        };
        self.same_result(&call, (model.refusal, 0, model.count), (library.refusal, 0, library.count));
        let (refusal, offset) = first_fault(input).unwrap_or((NOT_REFUSED, 0));
        self.same_result(&call, (refusal, 0, 0), (model.refusal, 0, 0));
        self.same_offset(&call, offset, model.fault_offset, library.fault_offset);
        self.unchanged(&call, &[&given]);
        self.tally.operation(Operation::Walk, model.refusal);
        self.tally.walked(model);
        model
    }

    pub fn write(&mut self, card: &Card, buffer: &mut [u8]) -> Told {
        let before = treadlewisp::card_bytes(card);
        let lent = self.guarded(&before);
        let mut room = self.guarded(buffer);
        let library = treadlewisp::write(lent.content(), room.slice());
        let model = engine::write(card, buffer);
        let call = Call {
            operation: Operation::Write,
            inputs: vec![("card", &before), ("buffer as the model left it", buffer)],
        };
        self.told(&call, model, library);
        self.same_bytes(&call, "the buffer", buffer, &room);
        self.unchanged(&call, &[&lent]);
        self.tally.operation(Operation::Write, model.refusal);
        self.tally.room(Operation::Write, buffer.len());
        self.tally.card(Operation::Write, model.refusal, card);
        model
    }

    pub fn read(&mut self, record: &[u8]) -> (u8, Card) {
        let garbage = self.alignment.bytes(CARD_BYTES);
        let mut lent = self.guarded(&garbage);
        let given = self.guarded(record);
        let library = treadlewisp::read(lent.slice(), given.content());
        let (model, card) = engine::read(record);
        let call = Call {
            operation: Operation::Read,
            inputs: vec![("record", record)],
        };
        self.same_result(&call, (model, 0, 0), (library, 0, 0));
        self.same_bytes(&call, "the card", &treadlewisp::card_bytes(&card), &lent);
        self.unchanged(&call, &[&given]);
        self.stands(&call, &card, Standing::Closed);
        self.tally.operation(Operation::Read, model);
        (model, card)
    }

    /// The tap read. Where both records are the same slice, the same memory is lent for both.
    pub fn tap(&mut self, record: &[u8], factory: &[u8]) -> Tapped {
        let lent = self.guarded(record);
        let other = (!std::ptr::eq(record, factory)).then(|| self.guarded(factory));
        let lent_factory = other.as_ref().unwrap_or(&lent);
        let library = treadlewisp::tap(lent.content(), lent_factory.content());
        let model = engine::tap(record, factory);
        let call = Call {
            operation: Operation::Tap,
            inputs: vec![("record", record), ("factory record", factory)],
        };
        let wanted = treadlewisp::Tapped {
            refusal: model.refusal,
            source: model.source as u8,
            offset: model.offset,
            length: model.length,
        };
        if wanted != library {
            self.differ(&call, "the part", &format!("{wanted:?}"), &format!("{library:?}"));
        }
        self.unchanged(&call, &[&lent, lent_factory]);
        self.tally.operation(Operation::Tap, model.refusal);
        self.tally.tap(record, model.refusal, model.source);
        model
    }

    pub fn entropy(&mut self, words: &[u8], buffer: &mut [u8]) -> Told {
        let given = self.guarded(words);
        let mut room = self.guarded(buffer);
        let library = treadlewisp::entropy(given.content(), room.slice());
        let model = engine::entropy(words, buffer);
        let call = Call {
            operation: Operation::Entropy,
            inputs: vec![("words", words), ("buffer as the model left it", buffer)],
        };
        self.told(&call, model, library);
        self.same_bytes(&call, "the buffer", buffer, &room);
        self.unchanged(&call, &[&given]);
        self.same_entropy(&call, entropy_of(words, buffer.len()), model, buffer);
        self.tally.operation(Operation::Entropy, model.refusal);
        self.tally.room(Operation::Entropy, buffer.len());
        self.tally.reversed(words, model.refusal);
        model
    }
}
