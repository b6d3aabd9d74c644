//! The commands that come sealed (RULES 6): MUTUAL in stage 1 or 2, all others in stage 2. Their answers are sealed where the channel
//! then stands in stage 2, and plain where it does not. Lengths are in bytes.

use super::card::*;
use super::commands::*;
use super::hash::sha256;
use super::message::open_command;
use super::phrase::{words_of, CHECKSUM_BITS};
use super::status::*;
use super::template::{der_integer, field, first_field, walk};

const RANDOM_BYTES: usize = 32;
const PRIVATE_KEY_BYTES: usize = 32;
const CHAIN_CODE_BYTES: usize = 32;
const SEED_BYTES: usize = 64;
const HASH_BYTES: usize = 32;
const NUMBER_BYTES: usize = 32;

/// EXPORT's P1: which path.
const GIVEN_PATH: u8 = 0x01;
const GIVEN_PATH_THEN_CURRENT: u8 = 0x02;
/// EXPORT's P2: what goes out.
const PRIVATE_AND_PUBLIC: u8 = 0x00;
const PUBLIC_ONLY: u8 = 0x01;
/// The node of the chat keys (EIP-1581), m/43'/60'/1581': private parts go out from here down.
const CHAT_NODE: [u8; 3 * COMPONENT_BYTES] = [0x80, 0x00, 0x00, 0x2b, 0x80, 0x00, 0x00, 0x3c, 0x80, 0x00, 0x06, 0x2d];

/// Steps 4 to 6.
pub fn run(card: &mut Card, name: Name, apdu: &Apdu, caller: &Caller) -> Outcome {
    let in_stage = card.stage == AUTHENTICATED || (name == Name::Mutual && card.stage == OPENED);
    require(in_stage, CONDITIONS_NOT_SATISFIED)?;
    let Some(data) = open_command(&mut card.session, apdu.header, apdu.data) else {
        card.close_channel();
        return Err(End::Status(SECURITY_NOT_SATISFIED));
    };
    let mut reply = settled(opened(card, name, apdu, &data, caller))?;
    reply.sealed = card.stage == AUTHENTICATED;
    Ok(reply)
}

/// Steps 5 and 6, with the opened data.
fn opened(card: &mut Card, name: Name, apdu: &Apdu, data: &[u8], caller: &Caller) -> Outcome {
    if name == Name::Mutual {
        return mutual(card, apdu, data, caller);
    }
    require_p1_p2(apdu, listed_p1(name), listed_p2(name))?;
    match name {
        Name::Unpair => unpair(card, apdu.p1()),
        Name::Status => get_status(card, apdu.p1()),
        Name::Verify => verify(card, data),
        Name::Change => change(card, apdu.p1(), data),
        Name::Unblock => unblock(card, data),
        Name::Load => load(card, apdu.p1(), data, caller),
        Name::Derive => derive(card, data, caller),
        Name::Remove => remove(card),
        Name::SetPinlessPath => set_pinless_path(card, data),
        Name::Sign => sign(card, data, caller),
        Name::Export => export(card, apdu, data, caller),
        Name::SetNdef => set_ndef(card, data),
        Name::Mnemonic => mnemonic(apdu.p1(), data, caller),
        Name::Select | Name::Init | Name::Open | Name::Mutual | Name::Pair => unreachable!("not of this kind"),
    }
}

fn listed_p1(name: Name) -> &'static [u8] {
    match name {
        Name::Unpair => &SLOT_INDICES,
        Name::Status => &[0x00, 0x01],
        Name::Change => &[0x00, 0x01, 0x02],
        Name::Load => &[0x01, 0x02, 0x03],
        Name::Export => &[0x00, GIVEN_PATH, GIVEN_PATH_THEN_CURRENT],
        Name::Mnemonic => &CHECKSUM_BITS,
        _ => &[0x00],
    }
}

fn listed_p2(name: Name) -> &'static [u8] {
    match name {
        Name::Export => &[PRIVATE_AND_PUBLIC, PUBLIC_ONLY],
        _ => &[0x00],
    }
}

fn require_pin(card: &Card) -> Result<(), End> {
    require(card.verified == YES, CONDITIONS_NOT_SATISFIED)
}

fn done() -> Outcome {
    Ok(Reply::success(Vec::new()))
}

fn mutual(card: &mut Card, apdu: &Apdu, data: &[u8], caller: &Caller) -> Outcome {
    if card.stage == AUTHENTICATED {
        require_p1(apdu, &[0x00])?;
        return Err(End::Status(CONDITIONS_NOT_SATISFIED));
    }
    let checked = require_p1(apdu, &[0x00]).and_then(|()| require(data.len() == RANDOM_BYTES, SECURITY_NOT_SATISFIED));
    if checked.is_err() {
        card.close_channel();
    }
    checked?;
    let random = caller.supply(FOR_MUTUAL, data)?;
    card.stage = AUTHENTICATED;
    Ok(Reply::success(random.to_vec()))
}

fn unpair(card: &mut Card, index: u8) -> Outcome {
    require_pin(card)?;
    card.slots[index as usize] = Slot::FREE;
    done()
}

fn get_status(card: &Card, p1: u8) -> Outcome {
    if p1 == 0x01 {
        return Ok(Reply::success(card.current_path.used().to_vec()));
    }
    let key = if card.key_kind == NO_KEY { 0x00 } else { 0xff };
    let inner = [field(0x02, &[card.pin_tries]), field(0x02, &[card.puk_tries]), field(0x01, &[key])];
    Ok(Reply::success(field(0xa3, &inner.concat())))
}

fn verify(card: &mut Card, data: &[u8]) -> Outcome {
    require(card.pin_tries > 0, WRONG_ENTRY)?;
    let right = data == card.pin;
    if right {
        card.pin_tries = PIN_TRIES;
        card.verified = YES;
    } else {
        card.pin_tries -= 1;
        card.verified = NO;
    }
    Ok(compared(Comparison::Pin(right), right, card.pin_tries))
}

/// The answer after a comparison: success, or 63C0 plus the tries that are left.
fn compared(comparison: Comparison, right: bool, tries: u8) -> Reply {
    let status = if right { SUCCESS } else { WRONG_ENTRY + tries as u16 };
    Reply {
        comparison: Some(comparison),
        ..Reply::of_status(status)
    }
}

fn change(card: &mut Card, p1: u8, data: &[u8]) -> Outcome {
    require_pin(card)?;
    match p1 {
        0x00 => {
            require(data.len() == PIN_BYTES && is_digits(data), WRONG_DATA)?;
            card.pin.copy_from_slice(data);
            card.pin_tries = PIN_TRIES;
        }
        0x01 => {
            require(data.len() == PUK_BYTES && is_digits(data), WRONG_DATA)?;
            card.puk.copy_from_slice(data);
            card.puk_tries = PUK_TRIES;
        }
        _ => {
            require(data.len() == SECRET_BYTES, WRONG_DATA)?;
            card.pairing_secret.copy_from_slice(data);
        }
    }
    done()
}

fn unblock(card: &mut Card, data: &[u8]) -> Outcome {
    require(card.pin_tries == 0, CONDITIONS_NOT_SATISFIED)?;
    require(card.puk_tries > 0, WRONG_ENTRY)?;
    require(data.len() == PUK_BYTES + PIN_BYTES, WRONG_DATA)?;
    let (puk, pin) = data.split_at(PUK_BYTES);
    require(is_digits(pin), WRONG_DATA)?;
    let right = puk == card.puk;
    if right {
        card.pin.copy_from_slice(pin);
        card.verified = YES;
        card.pin_tries = PIN_TRIES;
        card.puk_tries = PUK_TRIES;
    } else {
        card.puk_tries -= 1;
    }
    Ok(compared(Comparison::Puk(right), right, card.puk_tries))
}

fn load(card: &mut Card, p1: u8, data: &[u8], caller: &Caller) -> Outcome {
    require_pin(card)?;
    match p1 {
        0x03 => require(data.len() == SEED_BYTES, WRONG_DATA)?,
        _ => require_key_template(data, p1 == 0x02)?,
    }
    let supply = caller.supply(FOR_LOAD, data)?;
    require(supply[0] == YES, WRONG_DATA)?;
    card.key_kind = if p1 == 0x01 { SINGLE_KEY } else { EXTENDED_KEY };
    card.key_uid = sha256(&supply[1..]);
    card.current_path = Path::EMPTY;
    card.pinless_path = Path::EMPTY;
    Ok(Reply::success(card.key_uid.to_vec()))
}

/// The keypair template; the place of a fault is told wherever WALK finds one, whatever else is wrong before it.
fn require_key_template(data: &[u8], extended: bool) -> Result<(), End> {
    walk(data).map_err(|fault| End::FaultAt(fault.offset))?;
    require(is_key_template(data, extended), WRONG_DATA)
}

/// A1 holding 80 (65 bytes, optional), 81 (32 bytes), and 82 (32 bytes) exactly where extended; nothing else.
fn is_key_template(data: &[u8], extended: bool) -> bool {
    let Some(outer) = first_field(data) else { return false };
    let Some(mut held) = tags_and_lengths(outer.content) else {
        return false;
    };
    if held.first() == Some(&(0x80, POINT_BYTES)) {
        held.remove(0);
    }
    let mut wanted = vec![(0x81, PRIVATE_KEY_BYTES)];
    if extended {
        wanted.push((0x82, CHAIN_CODE_BYTES));
    }
    outer.tag == 0xa1 && outer.rest.is_empty() && held == wanted
}

/// Tag and length of each field of a sequence, if it can be read.
fn tags_and_lengths(sequence: &[u8]) -> Option<Vec<(u8, usize)>> {
    let mut fields = Vec::new();
    let mut left = sequence;
    while !left.is_empty() {
        let field = first_field(left)?;
        fields.push((field.tag, field.content.len()));
        left = field.rest;
    }
    Some(fields)
}

fn derive(card: &mut Card, data: &[u8], caller: &Caller) -> Outcome {
    let allowed = card.verified == YES || !card.pinless_path.is_empty();
    require(allowed && card.key_kind == EXTENDED_KEY, CONDITIONS_NOT_SATISFIED)?;
    require(is_path_length(data.len()), WRONG_DATA)?;
    let supply = caller.supply(FOR_DERIVE, data)?;
    require(supply[0] == YES, DATA_INVALID)?;
    card.current_path = Path::of(data);
    done()
}

fn remove(card: &mut Card) -> Outcome {
    require_pin(card)?;
    card.key_kind = NO_KEY;
    card.key_uid = [0; KEY_UID_BYTES];
    card.current_path = Path::EMPTY;
    card.pinless_path = Path::EMPTY;
    done()
}

fn set_pinless_path(card: &mut Card, data: &[u8]) -> Outcome {
    require_pin(card)?;
    require(is_path_length(data.len()), WRONG_DATA)?;
    card.pinless_path = Path::of(data);
    done()
}

fn sign(card: &Card, data: &[u8], caller: &Caller) -> Outcome {
    let on_pinless_path = !card.pinless_path.is_empty() && card.pinless_path == card.current_path;
    let allowed = card.verified == YES || on_pinless_path;
    require(allowed && card.key_kind != NO_KEY, CONDITIONS_NOT_SATISFIED)?;
    require(data.len() == HASH_BYTES, WRONG_DATA)?;
    let supply = caller.supply(FOR_SIGN, data)?;
    let (public_key, numbers) = supply.split_at(POINT_BYTES);
    let (r, s) = numbers.split_at(NUMBER_BYTES);
    let signature = field(0x30, &[der_integer(r), der_integer(s)].concat());
    let inner = [field(0x80, public_key), signature].concat();
    Ok(Reply::success(field(0xa0, &inner)))
}

fn export(card: &mut Card, apdu: &Apdu, data: &[u8], caller: &Caller) -> Outcome {
    require(card.key_kind == EXTENDED_KEY, CONDITIONS_NOT_SATISFIED)?;
    require_pin(card)?;
    let path = exported_path(card, apdu.p1(), data).ok_or(End::Status(WRONG_DATA))?;
    let with_private = apdu.p2() == PRIVATE_AND_PUBLIC;
    require(!with_private || path.used().starts_with(&CHAT_NODE), CONDITIONS_NOT_SATISFIED)?;
    let supply = caller.supply(FOR_EXPORT, data)?;
    require(supply[0] == YES, DATA_INVALID)?;
    let (public_key, private_key) = supply[1..].split_at(POINT_BYTES);
    let mut inner = field(0x80, public_key);
    if with_private {
        inner.extend(field(0x81, private_key));
    }
    if apdu.p1() == GIVEN_PATH_THEN_CURRENT {
        card.current_path = path;
    }
    Ok(Reply::success(field(0xa1, &inner)))
}

/// The path whose key is exported, if the data are right: the current one takes none, the given one is a path as in DERIVE.
fn exported_path(card: &Card, p1: u8, data: &[u8]) -> Option<Path> {
    match p1 {
        GIVEN_PATH | GIVEN_PATH_THEN_CURRENT => is_path_length(data.len()).then(|| Path::of(data)),
        _ => data.is_empty().then_some(card.current_path),
    }
}

fn set_ndef(card: &mut Card, data: &[u8]) -> Outcome {
    require_pin(card)?;
    require(is_tap_record(data), WRONG_DATA)?;
    card.tap = TapRecord::of(data);
    done()
}

/// It needs the channel alone: no PIN, no key, no data. The card keeps nothing of the phrase.
fn mnemonic(p1: u8, data: &[u8], caller: &Caller) -> Outcome {
    require(data.is_empty(), WRONG_DATA)?;
    let entropy = caller.entropy(p1)?;
    Ok(Reply::success(words_of(entropy)))
}
