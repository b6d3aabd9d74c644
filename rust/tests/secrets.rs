//! What calls and dropped values leave in memory. Each call is made bare, as C makes it, and as this crate makes it, on a painted stack
//! that is then searched for PINs, PUKs and keys: bare calls leave many, so the search does find; this crate's leave none.
//! `cargo test --test secrets -- --nocapture` shows what was found. Lengths are in bytes.

#[path = "common/desk.rs"]
mod desk;
#[path = "common/stack.rs"]
mod stack;

mod common;

use std::hint::black_box;
use std::mem::{size_of, MaybeUninit};
use std::slice;

use common::*;
use desk::Desk;
use stack::{on_stack, Left};
use treadlewisp::command::*;
use treadlewisp::*;

/// How much of the stack the test's own functions may use after a call, where it was wiped.
const AFTERWARDS_BYTES: usize = 1024;

const NEW_PIN: &[u8; PIN_BYTES] = b"314159";
const NEW_PUK: &[u8; PUK_BYTES] = b"271828182845";

/// A key that is like no other bytes.
fn key(seed: u32) -> [u8; KEY_BYTES] {
    let mut state = (seed + 1).wrapping_mul(2_654_435_761);
    [(); KEY_BYTES].map(|()| {
        state = state.wrapping_mul(1_664_525).wrapping_add(1_013_904_223);
        (state >> 24) as u8
    })
}

/// The keys, by name.
const PAIRED: (&str, u32) = ("pairing secret", 2);
const ENC: (&str, u32) = ("encryption key", 5);
const MAC: (&str, u32) = ("MAC key", 6);
const LOADED: (&str, u32) = ("loaded key", 7);
const CHAIN: (&str, u32) = ("chain code", 8);
const EXPORTED: (&str, u32) = ("exported key", 9);
const NEW_SECRET: (&str, u32) = ("new secret", 10);
const INITIAL: (&str, u32) = ("INIT key", 11);
const RECOVERED: (&str, u32) = ("entropy", 12);

/// The numbers of the words of that entropy, 48 bytes.
fn words() -> Vec<u8> {
    in_bytes(&word_numbers(&key(RECOVERED.1)))
}

/// What the card makes of the pairing secret and 32 bytes after it: the cryptogram that it expects, and the pairing key.
fn paired(after: &[u8; KEY_BYTES]) -> [u8; KEY_BYTES] {
    hashed(&[&key(PAIRED.1), after])
}

/// A key as SHA-256 reads it: words of 4 bytes, which have their low byte first in memory.
fn in_words(key: [u8; KEY_BYTES]) -> Vec<u8> {
    key.chunks(4).flat_map(|word| word.iter().rev()).copied().collect()
}

/// All secrets.
fn secrets() -> Vec<(&'static str, Vec<u8>)> {
    let digits = [("PIN", &PIN[..]), ("PUK", PUK), ("new PIN", NEW_PIN), ("new PUK", NEW_PUK)];
    let keys = [PAIRED, ENC, MAC, LOADED, CHAIN, EXPORTED, NEW_SECRET, INITIAL, RECOVERED];
    let hashes = [
        ("expected cryptogram", paired(&CARD_CHALLENGE).to_vec()),
        ("pairing key", paired(&SALT).to_vec()),
        ("pairing secret, in words", in_words(key(PAIRED.1))),
        ("entropy, in words", in_words(key(RECOVERED.1))),
        ("word numbers", words()),
    ];
    let digits = digits.into_iter().map(|(name, secret)| (name, secret.to_vec()));
    let keys = keys.map(|(name, seed)| (name, key(seed).to_vec()));
    digits.chain(keys).chain(hashes).collect()
}

/// A call, with all that it is given. What it gives goes to the same memory: nothing of it is on the stack that is searched.
struct Call {
    name: String,
    operation: Operation,
    life: Life,
    input: Vec<u8>,
    supply: Vec<u8>,
    buffer: Vec<u8>,
    header: [u8; HEADER_BYTES],
    /// Whether it was done, and how many bytes it wrote.
    done: bool,
    count: usize,
}

#[derive(Clone, Copy, PartialEq)]
enum Operation {
    Sound,
    Reset,
    Ask,
    Answer,
    Seal,
    Unseal,
    Walk,
    Entropy,
    Write,
    Read,
    Tap,
}

/// `tw_tapped`.
#[repr(C)]
struct Tapped {
    refusal: u8,
    source: u8,
    offset: usize,
    length: usize,
}

/// `tw_told`, and `tw_asked`, whose kind is not looked at.
#[repr(C)]
struct Told {
    refusal: u8,
    kind: u8,
    count: usize,
}

/// `tw_answered`, and `tw_walked`.
#[repr(C)]
struct Placed {
    refusal: u8,
    count: usize,
    fault_offset: usize,
}

extern "C" {
    fn tw_sound(card: *const Card) -> u8;
    fn tw_reset(card: *mut Card) -> u8;
    fn tw_ask(card: *const Card, cmd: *const u8, cmd_bytes: usize, buf: *mut u8, buf_bytes: usize) -> Told;
    fn tw_answer(
        card: *mut Card,
        cmd: *const u8,
        cmd_bytes: usize,
        sup: *const u8,
        sup_bytes: usize,
        buf: *mut u8,
        buf_bytes: usize,
    ) -> Placed;
    fn tw_seal(session: *mut Session, header: *const u8, data: *const u8, data_bytes: usize, buf: *mut u8, buf_bytes: usize) -> Told;
    fn tw_unseal(session: *mut Session, response: *const u8, response_bytes: usize, buf: *mut u8, buf_bytes: usize) -> Told;
    fn tw_walk(input: *const u8, input_bytes: usize) -> Placed;
    fn tw_entropy(words: *const u8, words_bytes: usize, buf: *mut u8, buf_bytes: usize) -> Told;
    fn tw_write(card: *const Card, buf: *mut u8, buf_bytes: usize) -> Told;
    fn tw_read(card: *mut Card, record: *const u8, record_bytes: usize) -> u8;
    fn tw_tap(record: *const u8, record_bytes: usize, factory: *const u8, factory_bytes: usize) -> Tapped;
}

impl Call {
    fn of(name: &str, operation: Operation, life: &Life, input: &[u8]) -> Call {
        Call {
            name: name.to_string(),
            operation,
            life: life.clone(),
            input: input.to_vec(),
            supply: vec![],
            buffer: vec![0; WRITE_ROOM_BYTES],
            header: [0; HEADER_BYTES],
            done: false,
            count: 0,
        }
    }

    /// The call as C makes it.
    fn bare(&mut self) {
        let (card, terminal) = (&mut self.life.card, &mut self.life.terminal);
        let (input, input_bytes) = (self.input.as_ptr(), self.input.len());
        let (supply, supply_bytes) = (self.supply.as_ptr(), self.supply.len());
        let (buf, buf_bytes) = (self.buffer.as_mut_ptr(), self.buffer.len());
        let only = |refusal: u8| Told {
            refusal,
            kind: 0,
            count: 0,
        };
        // No call here has a fault: ANSWER then tells 255, WALK 0.
        let counted = |placed: Placed, no_fault: usize| Told {
            refusal: placed.refusal + u8::from(placed.fault_offset != no_fault),
            kind: 0,
            count: placed.count,
        };
        // SAFETY: each pointer is that of a value that is here, with its length; no two overlap.
        let told = unsafe {
            match self.operation {
                Operation::Sound => only(1 - tw_sound(card)),
                Operation::Reset => only(tw_reset(card)),
                Operation::Ask => tw_ask(card, input, input_bytes, buf, buf_bytes),
                Operation::Answer => counted(tw_answer(card, input, input_bytes, supply, supply_bytes, buf, buf_bytes), 255),
                Operation::Seal => tw_seal(terminal, self.header.as_ptr(), input, input_bytes, buf, buf_bytes),
                Operation::Unseal => tw_unseal(terminal, input, input_bytes, buf, buf_bytes),
                Operation::Walk => counted(tw_walk(input, input_bytes), 0),
                Operation::Entropy => tw_entropy(input, input_bytes, buf, buf_bytes),
                Operation::Write => tw_write(card, buf, buf_bytes),
                Operation::Read => only(tw_read(card, input, input_bytes)),
                Operation::Tap => {
                    let tapped = tw_tap(input, input_bytes, supply, supply_bytes);
                    let is_own = tapped.source == 1 && tapped.offset + tapped.length == input_bytes;
                    only(tapped.refusal + u8::from(!is_own))
                }
            }
        };
        (self.done, self.count) = (told.refusal == 0, told.count);
    }

    /// The call as this crate makes it.
    fn safe(&mut self) {
        let (card, terminal) = (&mut self.life.card, &mut self.life.terminal);
        let (input, buffer) = (&self.input[..], &mut self.buffer[..]);
        let told = match self.operation {
            Operation::Sound => Ok(usize::from(!card.is_sound())),
            Operation::Reset => card.reset().map(|()| 0),
            Operation::Ask => card.ask(input, buffer).map(|asked| asked.count),
            Operation::Answer => card.answer(input, &self.supply, buffer).map(|answered| answered.count),
            Operation::Seal => terminal.seal(&self.header, input, buffer),
            Operation::Unseal => terminal.unseal(input, buffer),
            Operation::Walk => walk(input).map_err(Refusal::from),
            Operation::Entropy => entropy_into(input, buffer),
            Operation::Write => card.write(buffer),
            Operation::Read => {
                let read = Card::read(input);
                read.as_ref().map(|_| 0).map_err(|&refusal| refusal)
            }
            Operation::Tap => tap(input, &self.supply).map(|_| 0),
        };
        (self.done, self.count) = (told.is_ok(), told.unwrap_or(0));
    }
}

/// The calls of one command over the channel; the life is then the one after it.
fn command_calls(name: &str, life: &mut Life, header: [u8; HEADER_BYTES], data: &[u8], supply: &[u8], calls: &mut Vec<Call>) {
    let mut seal = Call::of(&format!("SEAL of {name}"), Operation::Seal, life, data);
    seal.header = header;
    calls.push(seal);
    let command = life.seal_with_header(header, data);
    let response = plain_calls(name, life, &command, supply, calls);
    calls.push(Call::of(&format!("UNSEAL of {name}"), Operation::Unseal, life, &response));
    let mut opened = [0; UNSEAL_ROOM_BYTES];
    let count = life.terminal.unseal(&response, &mut opened).expect("UNSEAL");
    assert_eq!(StatusWord::of(&opened[..count]), Some(StatusWord::SUCCESS), "{name}");
}

/// ASK and ANSWER; gives the response.
fn plain_calls(name: &str, life: &mut Life, command: &[u8], supply: &[u8], calls: &mut Vec<Call>) -> Vec<u8> {
    calls.push(Call::of(&format!("ASK of {name}"), Operation::Ask, life, command));
    let mut answer = Call::of(&format!("ANSWER to {name}"), Operation::Answer, life, command);
    answer.supply = supply.to_vec();
    calls.push(answer);
    let mut response = vec![0; ANSWER_ROOM_BYTES];
    let answered = life.card.answer(command, supply, &mut response).expect("ANSWER");
    response.truncate(answered.count);
    response
}

/// INIT with a key, PIN, PUK and pairing secret of this test, on a new card.
fn init_calls(calls: &mut Vec<Call>) -> Life {
    let mut life = Life::fresh();
    let (init_key, iv) = (key(INITIAL.1), [0x82; IV_BYTES]);
    let mut content = [&PIN[..], PUK, &key(PAIRED.1), &[0x80]].concat();
    content.resize(64, 0);
    plain::Aes::new().cbc_encrypt(&init_key, &iv, &mut content);
    let data = [&[0x41], &POINT[..], &iv, &content].concat();
    let init = plain_command(card_header(INIT, 0x00), &data);
    let response = plain_calls("INIT", &mut life, &init, &[&[0x01], &init_key[..]].concat(), calls);
    assert_eq!(response, [0x90, 0x00]);
    life
}

/// PAIR and OPEN; then the terminal has the session.
fn channel_calls(life: &mut Life, calls: &mut Vec<Call>) {
    let first = plain_command(card_header(PAIR, P1_PAIR_FIRST), &CLIENT_CHALLENGE);
    plain_calls("PAIR first", life, &first, &CARD_CHALLENGE, calls);
    let last = plain_command(card_header(PAIR, P1_PAIR_FINAL), &paired(&CARD_CHALLENGE));
    plain_calls("PAIR final", life, &last, &SALT, calls);
    assert_eq!(life.card.slots()[0].pairing_key(), &paired(&SALT));
    let keys = [&[0x01], &key(ENC.1)[..], &key(MAC.1), &[0x94; KEY_BYTES], &SEED_IV].concat();
    let open = plain_command(card_header(OPEN, 0x00), &POINT);
    plain_calls("OPEN", life, &open, &keys, calls);
    life.terminal = Session::new(&key(ENC.1), &key(MAC.1), &SEED_IV);
}

/// Every operation, with secrets in what it is given.
fn calls() -> Vec<Call> {
    let mut calls = Vec::new();
    let mut life = init_calls(&mut calls);
    channel_calls(&mut life, &mut calls);
    let loaded = [&[0xA1, 68, 0x81, 32], &key(LOADED.1)[..], &[0x82, 32], &key(CHAIN.1)].concat();
    let random = [0x95; KEY_BYTES];
    let load_supply = [&[0x01], &POINT[..]].concat();
    let export_supply = [&[0x01], &POINT[..], &key(EXPORTED.1)].concat();
    let mut sealed = |name: &str, life: &mut Life, instruction: u8, p1: u8, data: &[u8], supply: &[u8]| {
        command_calls(name, life, card_header(instruction, p1), data, supply, &mut calls);
    };
    sealed("MUTUAL", &mut life, MUTUAL, 0x00, &[0x0E; KEY_BYTES], &random);
    sealed("VERIFY", &mut life, VERIFY, 0x00, PIN, &[]);
    sealed("CHANGE of the PIN", &mut life, CHANGE, P1_CHANGE_PIN, NEW_PIN, &[]);
    for tries in (0..PIN_TRIES).rev() {
        let wrong = life.sealed_status(VERIFY, 0x00, b"000000");
        assert_eq!(wrong.tries_left(), Some(tries));
    }
    sealed("UNBLOCK", &mut life, UNBLOCK, 0x00, &[&PUK[..], PIN].concat(), &[]);
    sealed("CHANGE of the PUK", &mut life, CHANGE, P1_CHANGE_PUK, NEW_PUK, &[]);
    sealed("CHANGE of the secret", &mut life, CHANGE, P1_CHANGE_SECRET, &key(NEW_SECRET.1), &[]);
    sealed("LOAD", &mut life, LOAD, P1_LOAD_EXTENDED, &loaded, &load_supply);
    sealed("DERIVE", &mut life, DERIVE, 0x00, &EIP1581_PATH, &[0x01]);
    sealed("EXPORT", &mut life, EXPORT, P1_EXPORT_CURRENT, &[], &export_supply);
    sealed("SIGN", &mut life, SIGN, 0x00, &[0x5F; 32], &[0x12; 129]);
    sealed("SET NDEF", &mut life, SET_NDEF, 0x00, &[0x00, 0x03, 0xD0, 0x00, 0x00], &[]);
    let (phrase, recovered) = (P1_MNEMONIC_24_WORDS, key(RECOVERED.1));
    sealed("GENERATE MNEMONIC", &mut life, GENERATE_MNEMONIC, phrase, &[], &recovered);
    let mut record = [0; WRITE_ROOM_BYTES];
    let count = life.card.write(&mut record).expect("WRITE");
    calls.push(Call::of("WALK of LOAD's data", Operation::Walk, &life, &loaded));
    calls.push(Call::of("ENTROPY", Operation::Entropy, &life, &words()));
    calls.push(Call::of("soundness", Operation::Sound, &life, &[]));
    calls.push(Call::of("WRITE", Operation::Write, &life, &[]));
    calls.push(Call::of("READ", Operation::Read, &life, &record[..count]));
    calls.push(Call::of("the tap read", Operation::Tap, &life, &record[..count]));
    calls.push(Call::of("RESET", Operation::Reset, &life, &[]));
    calls
}

/// How many pieces of each secret are there.
fn found(left: &Left) -> Vec<(&'static str, usize)> {
    let counts = secrets().into_iter().map(|(name, secret)| (name, left.pieces(&secret)));
    counts.filter(|&(_, pieces)| pieces > 0).collect()
}

#[test]
fn calls_leave_no_secret_on_the_stack() {
    let mut left_bare: Vec<&str> = Vec::new();
    for (mut bare, mut safe) in calls().into_iter().zip(calls()) {
        let name = bare.name.clone();
        let left = on_stack(&mut || bare.bare());
        let pieces = found(&left);
        println!("{name}: {} bytes of stack; bare: {pieces:?}", left.used.len());
        assert!(left.used.len() <= STACK_WIPE_BYTES, "{name} uses more of the stack than is wiped");
        left_bare.extend(pieces.iter().map(|(name, _)| name));

        let left = on_stack(&mut || safe.safe());
        assert_eq!(found(&left), [], "{name}");
        let zeros = left.lowest_zeros();
        assert!(
            zeros >= STACK_WIPE_BYTES - AFTERWARDS_BYTES,
            "{name}: {zeros} bytes of zeros, or used below what is wiped"
        );
        assert!(bare.done && safe.done, "{name}");
        assert!(bare.count == safe.count || bare.operation == Operation::Walk, "{name}");
        assert_eq!(bare.buffer, safe.buffer, "{name}");
        assert!(bare.life.card == safe.life.card || bare.operation == Operation::Read, "{name}");
        assert_eq!(bare.life.terminal, safe.life.terminal, "{name}");
    }
    for name in ["PIN", "PUK", PAIRED.0, ENC.0, MAC.0, RECOVERED.0] {
        assert!(left_bare.contains(&name), "the search has not found the {name} after any bare call");
    }
}

/// Values that are made, copied, compared, shown as bytes and dropped leave nothing where they were.
#[test]
fn values_leave_no_secret_on_the_stack() {
    let life = calls().pop().expect("a call").life;
    let (card, terminal) = (&life.card, &life.terminal);
    let (card_bytes, session_bytes) = (Box::new(card.to_bytes()), Box::new(terminal.to_bytes()));
    let (keys, words) = (Box::new((key(ENC.1), key(MAC.1))), words());
    let values: [(&str, &mut dyn FnMut()); 10] = [
        ("a card of bytes", &mut || seen(&Card::from_bytes(&card_bytes))),
        ("a card's copy", &mut || seen(&card.clone())),
        ("a card's bytes", &mut || wipe(&mut card.to_bytes())),
        ("a slot's copy", &mut || seen(&card.slots()[0].clone())),
        ("a new session", &mut || seen(&Session::new(&keys.0, &keys.1, &SEED_IV))),
        ("a session of bytes", &mut || seen(&Session::from_bytes(&session_bytes))),
        ("a session's copy", &mut || seen(&terminal.clone())),
        ("a session's bytes", &mut || wipe(&mut terminal.to_bytes())),
        ("what is compared", &mut || seen(&(*card == *card && *terminal == *terminal))),
        ("entropy", &mut || seen(&entropy(&words))),
    ];
    for (name, value) in values {
        assert_eq!(found(&on_stack(value)), [], "{name}");
    }
    let left = on_stack(&mut || seen(&{ *card_bytes }));
    assert!(!found(&left).is_empty(), "a copy that nobody wipes is found");
}

/// Builders and whole exchanges, the host's supplies among them, leave nothing either.
#[test]
fn exchanges_leave_no_secret_on_the_stack() {
    let keys = Box::new([key(LOADED.1), key(CHAIN.1), key(INITIAL.1), key(PAIRED.1), key(RECOVERED.1)]);
    let [private_key, chain_code, aes_key, pairing_secret, recovered] = &*keys;
    let (point, iv, pin, puk) = (&POINT, &SEED_IV, PIN, PUK);
    let (init, loaded) = (
        InitParts {
            aes_key,
            point,
            iv,
            pin,
            puk,
            pairing_secret,
        },
        LoadedKey::Extended {
            private_key,
            chain_code,
            public_key: None,
        },
    );
    let chat = Path::from_bytes(&EIP1581_PATH).expect("a path");
    let (mut life, mut desk) = (Box::new(Life::in_channel()), Desk::new());
    desk.supply = |kind, p1| match kind {
        SupplyKind::Export => [&[0x01], &POINT[..], &key(EXPORTED.1)].concat(),
        SupplyKind::Mnemonic => key(RECOVERED.1).to_vec(),
        _ => supply_for(kind, p1),
    };
    let mut send = |command: &ChannelCommand, data_bytes: usize| {
        let answer = exchange(&mut life.terminal, &mut life.card, &mut desk, command);
        assert!(answer
            .as_ref()
            .is_ok_and(|answer| answer.status().is_success() && answer.data().len() == data_bytes));
    };
    let made: [(&str, &mut dyn FnMut()); 4] = [
        ("INIT", &mut || seen(&PlainCommand::init(&init))),
        ("LOAD's command", &mut || seen(&ChannelCommand::load(&loaded))),
        ("EXPORT's supply", &mut || {
            seen(&Supply::export(&ExportParts {
                public_key: point,
                private_key: Some(private_key),
            }))
        }),
        ("GENERATE MNEMONIC's supply", &mut || seen(&Supply::mnemonic(recovered))),
    ];
    for (name, make) in made {
        assert_eq!(found(&on_stack(make)), [], "{name}");
    }
    let exchanged = [
        ("VERIFY", ChannelCommand::verify(PIN), 0),
        ("LOAD", ChannelCommand::load(&loaded), KEY_BYTES),
        ("EXPORT", ChannelCommand::export(&chat, ExportedKeys::PrivateAndPublic), 103),
        ("GENERATE MNEMONIC", ChannelCommand::generate_mnemonic(Phrase::Words24), 48),
    ];
    for (name, command, data_bytes) in &exchanged {
        assert_eq!(found(&on_stack(&mut || send(command, *data_bytes))), [], "{name}");
    }
    for (name, command, _) in &exchanged {
        let sealed = command.seal(&mut life.terminal).expect("SEAL");
        let mut served = None;
        let left = on_stack(&mut || served = Some(life.card.serve(&mut desk, sealed.bytes()).is_ok()));
        assert_eq!((found(&left), served), (vec![], Some(true)), "{name}, the host's end alone");
        life.terminal = Session::from_bytes(
            &life.card.to_bytes()[place("enc_key").start..place("tap").start]
                .try_into()
                .expect("a session"),
        );
    }
}

/// Uses a value, so that it is made.
#[inline(never)]
fn seen<T>(value: &T) {
    black_box(value);
}

/// What is in a value's memory once it is dropped.
fn bytes_after_drop<T>(value: T) -> Vec<u8> {
    let mut place = Box::new(MaybeUninit::new(value));
    // SAFETY: the value is there and is dropped once; its memory is made of bytes alone and stays.
    unsafe {
        place.assume_init_drop();
        slice::from_raw_parts(place.as_ptr().cast::<u8>(), size_of::<T>()).to_vec()
    }
}

#[test]
fn a_dropped_value_is_zero() {
    let life = calls().pop().expect("a call").life;
    assert_eq!(bytes_after_drop(life.card.slots()[0].clone()), [0; SLOT_BYTES]);
    assert_eq!(bytes_after_drop(life.card), [0; CARD_BYTES]);
    assert_eq!(bytes_after_drop(life.terminal), [0; SESSION_BYTES]);
    // Of entropy its length stays, 32.
    let left = bytes_after_drop(entropy(&words()).expect("entropy"));
    assert_eq!(left.iter().filter(|&&byte| byte != 0).collect::<Vec<_>>(), [&32]);
    assert_eq!(bytes_after_drop([7_u8; 3]), [7; 3]);
}

/// A difference in any one byte is a difference.
#[test]
fn every_byte_is_compared() {
    let life = calls().pop().expect("a call").life;
    for at in 0..CARD_BYTES {
        let mut bytes = life.card.to_bytes();
        bytes[at] ^= 0x01;
        let other = Card::from_bytes(&bytes);
        assert_ne!(other, life.card, "byte {at}");
        assert_eq!(other, other.clone());
        assert_eq!(other.slots() == life.card.slots(), !place("slots").contains(&at), "byte {at}");
    }
    for at in 0..SESSION_BYTES {
        let mut bytes = life.terminal.to_bytes();
        bytes[at] ^= 0x80;
        assert_ne!(Session::from_bytes(&bytes), life.terminal, "byte {at}");
    }
}
