//! EXPORT: which key goes out, where its private part goes out, and what it leaves of the card. On cards that have all that it needs: every
//! P1 and P2 with every place of the path, every way of the supply, and supplies that differ in the private part alone; then each cause to
//! refuse, and which one comes first. What is wanted is told here, apart from the model. Lengths are in bytes.

use crate::both::{hex, Both};
use crate::directed::ready_card;
use crate::host::{room, supply_of};
use crate::may_occur::{every_supplied, Situation, Supplied};
use crate::paths::{every_neighbour, every_path, path_at, place_of, Place, EVERY_PLACE};
use crate::requests::Request;
use outside::ciphers::plain::BLOCK_BYTES;
use outside::model::card::*;
use outside::model::commands::{Name, FOR_EXPORT};
use outside::model::engine::*;
use outside::model::message::{seal_command, HEADER_BYTES, MAX_DATA_BYTES};
use outside::model::status::*;
use outside::random::choice::pick;
use outside::random::Random;

pub const EVERY_P1: [u8; 3] = [0x00, 0x01, 0x02];
pub const EVERY_P2: [u8; 2] = [WITH_PRIVATE, PUBLIC_ONLY];
const WITH_PRIVATE: u8 = 0x00;
const PUBLIC_ONLY: u8 = 0x01;
const PRIVATE_KEY_BYTES: usize = 32;
/// The lengths of data that are tried with each P1: all up to some more than a path has.
const DATA_BYTES: usize = PATH_BYTES + 2 * COMPONENT_BYTES;

pub fn run(both: &mut Both, seed: u64) {
    both.walk = "the exports".to_string();
    let mut random = Random::new(seed.rotate_left(53));
    let random = &mut random;
    for path in every_path(random) {
        each_p1_and_p2(both, random, &path, &every_supplied(FOR_EXPORT));
    }
    for path in every_neighbour() {
        each_p1_and_p2(both, random, &path, &[Supplied::Right]);
    }
    data(both, random);
    parameters(both, random);
    conditions(both, random);
}

/// A call: the card with its key and its verified PIN, and the command before sealing.
pub struct Call {
    pub card: Card,
    pub request: Request,
}

impl Call {
    pub fn command(&self) -> Vec<u8> {
        seal_command(&mut self.card.session.clone(), self.request.header, &self.request.data)
    }
}

/// EXPORT of this path on a ready card: the current one with P1 00, else the given one, and then the current one lies on the other side.
pub fn call(random: &mut Random, p1: u8, p2: u8, path: &[u8]) -> Call {
    let mut card = ready_card(random, Situation::Authenticated);
    let is_inside = place_of(path).is_inside();
    let others = if is_inside {
        [Place::Above, Place::Beside]
    } else {
        [Place::At, Place::Below]
    };
    let other = pick(random, &others);
    let (current, given) = match p1 {
        0x00 => (path.to_vec(), vec![]),
        _ => (path_at(random, other), path.to_vec()),
    };
    card.current_path = Path::of(&current);
    card.pinless_path = pick(random, &[card.pinless_path, card.current_path, Path::EMPTY]);
    Call {
        card,
        request: request(p1, p2, &given),
    }
}

pub fn request(p1: u8, p2: u8, data: &[u8]) -> Request {
    let mut request = Request::new(Name::Export, p1, data);
    request.header[3] = p2;
    request
}

/// What came of a call: the refusal, the opened answer and the whole response where there is one, and the next card.
#[derive(PartialEq, Eq, Debug)]
struct Got {
    refusal: u8,
    opened: Vec<u8>,
    response: Vec<u8>,
    next: Card,
}

fn fail(call: &Call, what: &str) -> ! {
    println!("THE EXPORT {}: {what}", hex(&call.request.plain()));
    println!("  current path {}", hex(call.card.current_path.used()));
    std::process::exit(1);
}

/// ANSWER, and UNSEAL with the terminal's session; every answer to a card with a channel is sealed.
fn answer(both: &mut Both, random: &mut Random, call: &Call, supply: &[u8]) -> Got {
    let command = call.command();
    let mut next = call.card;
    let mut response = room(random, ANSWER_ROOM_BYTES);
    let answered = both.answer(&mut next, &command, supply, &mut response);
    response.truncate(answered.told.count);
    let mut opened = Vec::new();
    if answered.told.refusal == NOT_REFUSED {
        let mut session = call.card.session;
        session.iv.copy_from_slice(&command[HEADER_BYTES + 1..][..BLOCK_BYTES]);
        opened = room(random, UNSEAL_ROOM_BYTES);
        let told = both.unseal(&mut session, &response, &mut opened);
        opened.truncate(told.count);
        if told.refusal != NOT_REFUSED || session != next.session {
            fail(call, "the answer does not open, or the two ends do not agree");
        }
    }
    Got {
        refusal: answered.told.refusal,
        opened,
        response,
        next,
    }
}

/// ASK has to tell this kind, and with it the opened data.
fn asks(both: &mut Both, random: &mut Random, call: &Call, kind: u8) {
    let mut buffer = room(random, ASK_ROOM_BYTES);
    let asked = both.ask(&call.card, &call.command(), &mut buffer);
    let data: &[u8] = if kind == 0 { &[] } else { &call.request.data };
    if (asked.refusal, asked.kind) != (NOT_REFUSED, kind) || &buffer[..asked.count] != data {
        fail(call, &format!("ASK gave {asked:?} instead of kind {kind} with {}", hex(data)));
    }
}

/// The answer has to be this one, and the card may have no other change than the channel's IV and, where told, the current path.
fn gives(call: &Call, got: &Got, opened: &[u8], current: &Path) {
    let mut next = call.card;
    next.current_path = *current;
    next.session.iv = got.next.session.iv;
    if got.refusal != NOT_REFUSED || got.opened != opened {
        fail(
            call,
            &format!("{} instead of {}, refusal {}", hex(&got.opened), hex(opened), got.refusal),
        );
    }
    if got.next != next || got.next.session.iv == call.card.session.iv {
        fail(call, "the card changed in another way than it should");
    }
}

/// The status word alone, and no other change than the channel's IV.
fn gives_word(call: &Call, got: &Got, status: u16) {
    gives(call, got, &status.to_be_bytes(), &call.card.current_path);
}

/// A1 with 80 and the public key and, for P2 00, 81 and the private key; then 9000.
fn wanted_answer(p2: u8, supply: &[u8]) -> Vec<u8> {
    let (public_key, private_key) = supply[1..].split_at(POINT_BYTES);
    match p2 {
        WITH_PRIVATE => [&[0xa1, 0x65, 0x80, 0x41], public_key, &[0x81, 0x20], private_key, &[0x90, 0x00]].concat(),
        _ => [&[0xa1, 0x43, 0x80, 0x41], public_key, &[0x90, 0x00]].concat(),
    }
}

fn each_p1_and_p2(both: &mut Both, random: &mut Random, path: &[u8], ways: &[Supplied]) {
    for p1 in EVERY_P1 {
        for p2 in EVERY_P2 {
            export(both, random, p1, p2, path, ways);
        }
    }
}

/// One path with one P1 and P2: these ways of the supply, and two supplies that differ in the private part alone.
fn export(both: &mut Both, random: &mut Random, p1: u8, p2: u8, path: &[u8], ways: &[Supplied]) {
    let call = call(random, p1, p2, path);
    let goes_out = p2 == PUBLIC_ONLY || place_of(path).is_inside();
    asks(both, random, &call, if goes_out { FOR_EXPORT } else { 0 });
    for &way in ways {
        let supply = supply_of(random, FOR_EXPORT, &[0; 32], way);
        let got = answer(both, random, &call, &supply);
        match way {
            // Elsewhere the supply is not looked at, whatever it is.
            _ if !goes_out => gives_word(&call, &got, CONDITIONS_NOT_SATISFIED),
            Supplied::Right => {
                let current = if p1 == 0x02 { Path::of(path) } else { call.card.current_path };
                gives(&call, &got, &wanted_answer(p2, &supply), &current);
            }
            Supplied::No => gives_word(&call, &got, DATA_INVALID),
            _ if got.refusal == WRONG_SUPPLY && got.next == call.card => {}
            _ => fail(&call, &format!("{way:?} gave refusal {} instead of {WRONG_SUPPLY}", got.refusal)),
        }
    }
    other_private_key(both, random, &call, goes_out && p2 == WITH_PRIVATE);
}

/// Two supplies that differ in the last 32 bytes alone: where the private part does not go out, card, count and bytes are the same; where it
/// does, the answers are not.
fn other_private_key(both: &mut Both, random: &mut Random, call: &Call, goes_out: bool) {
    let supply = supply_of(random, FOR_EXPORT, &[0; 32], Supplied::Right);
    let mut other = supply.clone();
    let at = supply.len() - 1 - random.below(PRIVATE_KEY_BYTES);
    other[at] ^= 1 << random.below(8);
    let first = answer(both, random, call, &supply);
    let second = answer(both, random, call, &other);
    if (first == second) == goes_out {
        let which = if goes_out { "does not depend" } else { "depends" };
        fail(call, &format!("the answer {which} on the private part"));
    }
}

/// A supply that is right; where it is not read, it is as good as any.
fn right_supply(random: &mut Random) -> Vec<u8> {
    supply_of(random, FOR_EXPORT, &[0; 32], Supplied::Right)
}

/// Data of each length: none with P1 00, and else whole components, at most 10. Wrong data come before a private part elsewhere.
fn data(both: &mut Both, random: &mut Random) {
    for p1 in EVERY_P1 {
        for p2 in EVERY_P2 {
            for data_bytes in (0..=DATA_BYTES).chain([MAX_DATA_BYTES]) {
                let place = pick(random, &EVERY_PLACE);
                let path = path_at(random, place);
                let mut call = call(random, p1, p2, &path);
                call.request.data = [&path_at(random, Place::Below), &random.bytes(data_bytes)[..]].concat();
                call.request.data.truncate(data_bytes);
                let is_right = if p1 == 0x00 {
                    data_bytes == 0
                } else {
                    data_bytes <= PATH_BYTES && data_bytes % COMPONENT_BYTES == 0
                };
                if is_right {
                    continue;
                }
                asks(both, random, &call, 0);
                let supply = right_supply(random);
                let got = answer(both, random, &call, &supply);
                gives_word(&call, &got, WRONG_DATA);
            }
        }
    }
}

/// Every other P1 with each P2, and every other P2 with each P1. 6A86 comes before all else.
fn parameters(both: &mut Both, random: &mut Random) {
    let with_p2 = (0..=0xff).flat_map(|p1| EVERY_P2.map(|p2| (p1, p2)));
    let with_p1 = (0..=0xff).flat_map(|p2| EVERY_P1.map(|p1| (p1, p2)));
    let is_listed = |(p1, p2): &(u8, u8)| EVERY_P1.contains(p1) && EVERY_P2.contains(p2);
    for (p1, p2) in with_p2.chain(with_p1).filter(|both| !is_listed(both)) {
        let path = path_at(random, Place::Below);
        let mut call = call(random, 0x01, WITH_PRIVATE, &path);
        (call.request.header[2], call.request.header[3]) = (p1, p2);
        let cause = random.below(3);
        spoil(random, &mut call, cause);
        let supply = right_supply(random);
        let got = answer(both, random, &call, &supply);
        gives_word(&call, &got, WRONG_P1_P2);
    }
}

/// A cause to refuse that is looked at later: no PIN, no extended key, wrong data.
fn spoil(random: &mut Random, call: &mut Call, cause: usize) {
    match cause {
        0 => call.card.verified = NO,
        1 => {
            call.card.key_kind = pick(random, &[NO_KEY, SINGLE_KEY]);
            call.card.current_path = Path::EMPTY;
            if call.card.key_kind == NO_KEY {
                call.card.key_uid = [0; KEY_UID_BYTES];
            }
        }
        _ => call.request.data = random.bytes(3),
    }
}

/// Without an extended key or a verified PIN: 6985, before wrong data and before the supply, wherever the path and the PIN-less path are.
fn conditions(both: &mut Both, random: &mut Random) {
    for p1 in EVERY_P1 {
        for p2 in EVERY_P2 {
            for place in EVERY_PLACE {
                for causes in [&[0][..], &[1], &[0, 1], &[0, 2], &[1, 2]] {
                    let path = path_at(random, place);
                    let mut call = call(random, p1, p2, &path);
                    call.card.pinless_path = Path::of(&path);
                    for &cause in causes {
                        spoil(random, &mut call, cause);
                    }
                    asks(both, random, &call, 0);
                    let way = pick(random, &every_supplied(FOR_EXPORT));
                    let supply = supply_of(random, FOR_EXPORT, &[0; 32], way);
                    let got = answer(both, random, &call, &supply);
                    gives_word(&call, &got, CONDITIONS_NOT_SATISFIED);
                }
            }
        }
    }
}
