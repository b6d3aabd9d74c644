//! What the rules (docs/RULES.md) let occur, as tables: the refusals of each operation, the status words of each command in each situation, the supplies,
//! what UNSEAL says of a response by its Lr. A run has to meet every row, and nothing beside them. Lengths are in bytes.

use crate::exports::{EVERY_P1, EVERY_P2};
use crate::paths::{place_of, Place, EVERY_PLACE};
use crate::records::{form_of_record, SLOTS_NOW, SLOTS_THEN};
use crate::word_numbers::EVERY_CHECKSUM_BITS;
use outside::ciphers::plain::BLOCK_BYTES;
use outside::model::card::{is_path_length, Card, Session, AUTHENTICATED, EXTENDED_KEY, NO, OPENED, YES};
use outside::model::commands::*;
use outside::model::engine::*;
use outside::model::message::{mac, open_command, HEADER_BYTES, MAX_FIELD_BYTES, MIN_FIELD_BYTES};
use outside::model::status::*;

#[derive(Clone, Copy, PartialEq, Eq, PartialOrd, Ord, Debug)]
pub enum Operation {
    Fresh,
    Sound,
    Reset,
    Ask,
    Answer,
    Seal,
    Unseal,
    Walk,
    Write,
    Read,
    Tap,
    Entropy,
}

/// The refusals that each operation can give, 0 being none.
pub const REFUSALS: [(Operation, &[u8]); 12] = [
    (Operation::Fresh, &[NOT_REFUSED]),
    (Operation::Sound, &[NOT_REFUSED]),
    (Operation::Reset, &[NOT_REFUSED, UNSOUND]),
    (Operation::Ask, &[NOT_REFUSED, UNSOUND, SHORT_BUFFER]),
    (Operation::Answer, &[NOT_REFUSED, UNSOUND, SHORT_BUFFER, WRONG_SUPPLY]),
    (Operation::Seal, &[NOT_REFUSED, SHORT_BUFFER, LONG_DATA]),
    (Operation::Unseal, &[NOT_REFUSED, SHORT_BUFFER, NOT_GENUINE]),
    (Operation::Walk, &[NOT_REFUSED, MALFORMED, TOO_DEEP]),
    (Operation::Write, &[NOT_REFUSED, UNSOUND, SHORT_BUFFER]),
    (Operation::Read, &[NOT_REFUSED, NOT_A_RECORD]),
    (Operation::Tap, &[NOT_REFUSED, NOT_A_RECORD]),
    (
        Operation::Entropy,
        &[NOT_REFUSED, SHORT_BUFFER, WRONG_COUNT, NUMBER_TOO_LARGE, WRONG_CHECKSUM],
    ),
];

/// A record that the tap read is lent, by what READ says of it; after INIT with the number of slots that field 24 holds.
#[derive(Clone, Copy, PartialEq, Eq, PartialOrd, Ord, Debug)]
pub enum Recorded {
    /// READ refuses it.
    NotRecord,
    PreInitialised,
    /// It ends before field 34.
    Untapped(usize),
    /// Its field 34 is empty.
    NeverSet(usize),
    /// Its field 34 has the card's own tap record.
    Own(usize),
}

pub const EVERY_RECORDED: [Recorded; 8] = [
    Recorded::NotRecord,
    Recorded::PreInitialised,
    Recorded::Untapped(SLOTS_THEN),
    Recorded::Untapped(SLOTS_NOW),
    Recorded::NeverSet(SLOTS_THEN),
    Recorded::NeverSet(SLOTS_NOW),
    Recorded::Own(SLOTS_THEN),
    Recorded::Own(SLOTS_NOW),
];

pub fn recorded(record: &[u8]) -> Recorded {
    let (refusal, card) = read(record);
    if refusal != NOT_REFUSED {
        return Recorded::NotRecord;
    }
    match form_of_record(record) {
        None => Recorded::PreInitialised,
        Some(form) if card.tap.used_bytes != 0 => Recorded::Own(form.slots),
        Some(form) if form.tapped => Recorded::NeverSet(form.slots),
        Some(form) => Recorded::Untapped(form.slots),
    }
}

/// What the tap read gives for a record: its refusal, and where the part lies.
pub fn tapped_of(recorded: Recorded) -> (u8, Source) {
    match recorded {
        Recorded::NotRecord => (NOT_A_RECORD, Source::None),
        Recorded::PreInitialised | Recorded::Untapped(_) | Recorded::NeverSet(_) => (NOT_REFUSED, Source::Factory),
        Recorded::Own(_) => (NOT_REFUSED, Source::Record),
    }
}

/// What Lr counts in the MAC of a response, by the session that it is opened with.
#[derive(Clone, Copy, PartialEq, Eq, PartialOrd, Ord, Debug)]
pub enum Lr {
    /// MAC and ciphertext.
    Field,
    /// The ciphertext alone, as up to version 0.1.0.
    Ciphertext,
    /// Neither: the MAC is wrong, or there is no field before a 9000.
    Neither,
}

/// The refusals that UNSEAL can give by Lr. Where Lr is right, padding or the length inside may be wrong; another Lr is never opened.
pub const RESPONSES: [(Lr, &[u8]); 3] = [
    (Lr::Field, &[NOT_REFUSED, SHORT_BUFFER, NOT_GENUINE]),
    (Lr::Ciphertext, &[SHORT_BUFFER, NOT_GENUINE]),
    (Lr::Neither, &[SHORT_BUFFER, NOT_GENUINE]),
];

pub fn lr_of(session: &Session, response: &[u8]) -> Lr {
    let Some(field) = response.strip_suffix(&[0x90, 0x00]) else {
        return Lr::Neither;
    };
    if field.len() % BLOCK_BYTES != 0 || !(MIN_FIELD_BYTES..=MAX_FIELD_BYTES).contains(&field.len()) {
        return Lr::Neither;
    }
    let (tag, ciphertext) = field.split_at(BLOCK_BYTES);
    let is_made_with = |lr: usize| {
        let mut head = [0; BLOCK_BYTES];
        head[0] = lr as u8;
        mac(&session.mac_key, &head, ciphertext) == tag
    };
    match ciphertext.len() {
        bytes if is_made_with(bytes + BLOCK_BYTES) => Lr::Field,
        bytes if is_made_with(bytes) => Lr::Ciphertext,
        _ => Lr::Neither,
    }
}

/// The operations with a buffer, and the least room that each takes.
pub const ROOMS: [(Operation, usize); 6] = [
    (Operation::Ask, ASK_ROOM_BYTES),
    (Operation::Answer, ANSWER_ROOM_BYTES),
    (Operation::Seal, SEAL_ROOM_BYTES),
    (Operation::Unseal, UNSEAL_ROOM_BYTES),
    (Operation::Write, WRITE_ROOM_BYTES),
    (Operation::Entropy, ENTROPY_ROOM_BYTES),
];

/// A buffer beside the least room of its operation.
#[derive(Clone, Copy, PartialEq, Eq, PartialOrd, Ord, Debug)]
pub enum Room {
    Empty,
    Under,
    OneUnder,
    Least,
    Over,
}

pub const EVERY_ROOM: [Room; 5] = [Room::Empty, Room::Under, Room::OneUnder, Room::Least, Room::Over];

pub fn room_of(operation: Operation, bytes: usize) -> Option<Room> {
    let least_bytes = ROOMS.iter().find(|row| row.0 == operation)?.1;
    Some(match bytes {
        0 => Room::Empty,
        _ if bytes > least_bytes => Room::Over,
        _ if bytes == least_bytes => Room::Least,
        _ if bytes == least_bytes - 1 => Room::OneUnder,
        _ => Room::Under,
    })
}

/// The situation of a sound card when a call comes.
#[derive(Clone, Copy, PartialEq, Eq, PartialOrd, Ord, Debug)]
pub enum Situation {
    PreInitialised,
    /// Stage 0, no pairing pending.
    Closed,
    /// Stage 0, a pairing pending.
    Pending,
    /// Stage 1.
    Opened,
    /// Stage 2.
    Authenticated,
}

pub const EVERY_SITUATION: [Situation; 5] = [
    Situation::PreInitialised,
    Situation::Closed,
    Situation::Pending,
    Situation::Opened,
    Situation::Authenticated,
];

pub fn situation_of(card: &Card) -> Situation {
    match card.stage {
        _ if card.initialised == NO => Situation::PreInitialised,
        OPENED => Situation::Opened,
        AUTHENTICATED => Situation::Authenticated,
        _ if card.pending == YES => Situation::Pending,
        _ => Situation::Closed,
    }
}

/// A command by its first two bytes; none where they name none.
pub fn name_of(command: &[u8]) -> Option<Name> {
    let wanted_class = |name| if name == Name::Select { 0x00 } else { 0x80 };
    let known = INSTRUCTIONS
        .iter()
        .find(|known| command.starts_with(&[wanted_class(known.0), known.1]));
    known.map(|known| known.0)
}

/// Every command, and none for what is no command.
pub fn every_name() -> Vec<Option<Name>> {
    INSTRUCTIONS.iter().map(|known| Some(known.0)).chain([None]).collect()
}

/// The plain status words that a command can get in this situation.
pub fn plain_words(situation: Situation, name: Option<Name>) -> &'static [u16] {
    use Situation::*;
    match (situation, name) {
        (_, None) => &[0x6700, 0x6d00, 0x6e00],
        (_, Some(Name::Select)) => &[0x6700, 0x6a82, 0x6a86, 0x9000],
        (PreInitialised, Some(Name::Init)) | (Closed | Pending | Opened | Authenticated, Some(Name::Open)) => {
            &[0x6700, 0x6a80, 0x6a86, 0x9000]
        }
        (PreInitialised, _) | (_, Some(Name::Init)) => &[0x6700, 0x6d00],
        // Without a pending pairing nothing is compared; with one there is a free slot.
        (Closed | Opened, Some(Name::Pair)) => &[0x6700, 0x6a80, 0x6a84, 0x6a86, 0x9000],
        (Pending, Some(Name::Pair)) => &[0x6700, 0x6982, 0x6a80, 0x6a86, 0x9000],
        (Authenticated, Some(Name::Pair)) => &[0x6700, 0x6985, 0x6a86],
        (Opened, Some(Name::Mutual)) => &[0x6700, 0x6982, 0x6a86],
        (Authenticated, _) => &[0x6700, 0x6982],
        _ => &[0x6700, 0x6985],
    }
}

/// The sealed status words. 63C5 is none: a wrong entry has cost a try, and 5 are the most.
pub fn sealed_words(situation: Situation, name: Option<Name>) -> &'static [u16] {
    match (situation, name) {
        (Situation::Opened, Some(Name::Mutual)) => &[0x9000],
        (Situation::Authenticated, Some(name)) => sealed_words_of(name),
        _ => &[],
    }
}

fn sealed_words_of(name: Name) -> &'static [u16] {
    match name {
        Name::Select | Name::Init | Name::Open | Name::Pair => &[],
        Name::Mutual => &[0x6985, 0x6a86],
        Name::Status => &[0x6a86, 0x9000],
        Name::Mnemonic => &[0x6a80, 0x6a86, 0x9000],
        Name::Verify => &[0x63c0, 0x63c1, 0x63c2, 0x6a86, 0x9000],
        Name::Unblock => &[0x63c0, 0x63c1, 0x63c2, 0x63c3, 0x63c4, 0x6985, 0x6a80, 0x6a86, 0x9000],
        Name::Unpair | Name::Remove => &[0x6985, 0x6a86, 0x9000],
        Name::Derive | Name::Export => &[0x6984, 0x6985, 0x6a80, 0x6a86, 0x9000],
        Name::Change | Name::Load | Name::SetPinlessPath | Name::Sign | Name::SetNdef => &[0x6985, 0x6a80, 0x6a86, 0x9000],
    }
}

/// An EXPORT that is looked at past its data: P1, P2 and the place of the path whose key is exported.
pub type Exported = (u8, u8, Place);

/// What of EXPORT gets here, on this card: a listed P1 and P2, an extended key, a verified PIN and right data.
pub fn exported(card: &Card, command: &[u8]) -> Option<Exported> {
    let (header, lc_and_data) = command.split_first_chunk::<HEADER_BYTES>()?;
    let [_, _, p1, p2] = *header;
    let ready = card.verified == YES && card.key_kind == EXTENDED_KEY && EVERY_P1.contains(&p1) && EVERY_P2.contains(&p2);
    let is_made = matches!(form_of(command), Form::Data | Form::DataLe);
    if name_of(command) != Some(Name::Export) || !ready || !is_made {
        return None;
    }
    let (&lc, data) = lc_and_data.split_first()?;
    let data = open_command(&mut card.session.clone(), *header, &data[..lc as usize])?;
    match p1 {
        0x00 => data.is_empty().then(|| (p1, p2, place_of(card.current_path.used()))),
        _ => is_path_length(data.len()).then(|| (p1, p2, place_of(&data))),
    }
}

/// The status words of such an EXPORT: the private part goes out from the node down, and only there is the supply read for it.
pub fn export_words((_, p2, place): Exported) -> &'static [u16] {
    if p2 == 0x00 && !place.is_inside() {
        &[0x6985]
    } else {
        &[0x6984, 0x9000]
    }
}

/// Each P1 and P2 with each place.
pub fn every_exported() -> Vec<Exported> {
    let parameters = EVERY_P1.iter().flat_map(|&p1| EVERY_P2.map(|p2| (p1, p2)));
    parameters.flat_map(|(p1, p2)| EVERY_PLACE.map(|place| (p1, p2, place))).collect()
}

/// A success that has to do with the slots of the card that got it, by the index or the count that the card gave or took.
#[derive(Clone, Copy, PartialEq, Eq, PartialOrd, Ord, Debug)]
pub enum Slotted {
    /// PAIR filled the slot.
    Paired(usize),
    /// OPEN took the slot.
    Opened(usize),
    /// UNPAIR freed the slot.
    Unpaired(usize),
    /// SELECT told so many free slots.
    Free(usize),
}

/// What of the slots a success of this command shows, by the card that it was given.
pub fn slotted(card: &Card, command: &[u8]) -> Option<Slotted> {
    let p1 = *command.get(2)?;
    match name_of(command)? {
        Name::Pair if p1 == 0x01 => card.first_free_slot().map(Slotted::Paired),
        Name::Open => Some(Slotted::Opened(p1 as usize)),
        Name::Unpair => Some(Slotted::Unpaired(p1 as usize)),
        Name::Select if card.initialised == YES => Some(Slotted::Free(card.free_slots())),
        _ => None,
    }
}

/// Each index, 0 to 7, and each count, 0 to 8.
pub fn every_slotted() -> Vec<Slotted> {
    let indices = (0..SLOTS_NOW).flat_map(|index| [Slotted::Paired(index), Slotted::Opened(index), Slotted::Unpaired(index)]);
    indices.chain((0..=SLOTS_NOW).map(Slotted::Free)).collect()
}

/// How a command is made, by its length and byte 4.
#[derive(Clone, Copy, PartialEq, Eq, PartialOrd, Ord, Debug)]
pub enum Form {
    /// Under 4 bytes, and how many.
    Short(usize),
    /// 4 bytes.
    Header,
    /// 5 bytes: byte 4 is Le.
    HeaderLe,
    Data,
    DataLe,
    /// More than 5 bytes, and byte 4 is 00.
    LcZero,
    /// Lc tells another length.
    LcWrong,
}

pub const EVERY_FORM: [Form; 10] = [
    Form::Short(0),
    Form::Short(1),
    Form::Short(2),
    Form::Short(3),
    Form::Header,
    Form::HeaderLe,
    Form::Data,
    Form::DataLe,
    Form::LcZero,
    Form::LcWrong,
];

pub fn form_of(command: &[u8]) -> Form {
    match command.len() {
        bytes @ 0..=3 => Form::Short(bytes),
        4 => Form::Header,
        5 => Form::HeaderLe,
        _ if command[4] == 0 => Form::LcZero,
        bytes if bytes == 5 + command[4] as usize => Form::Data,
        bytes if bytes == 6 + command[4] as usize => Form::DataLe,
        _ => Form::LcWrong,
    }
}

/// A supply beside the one that is read.
#[derive(Clone, Copy, PartialEq, Eq, PartialOrd, Ord, Debug)]
pub enum Supplied {
    /// Right, with flag 01 where there is a flag.
    Right,
    /// Right, with flag 00.
    No,
    BadFlag,
    Empty,
    /// Flag 00 alone where more is wanted.
    LoneNo,
    Short,
    Long,
}

pub fn supplied(wanted: &Supply, supply: &[u8]) -> Supplied {
    match supply {
        [] => Supplied::Empty,
        _ if supply.len() > wanted.bytes => Supplied::Long,
        [0] if wanted.has_flag && wanted.bytes > 1 => Supplied::LoneNo,
        _ if supply.len() < wanted.bytes => Supplied::Short,
        [0, ..] if wanted.has_flag => Supplied::No,
        [2..=255, ..] if wanted.has_flag => Supplied::BadFlag,
        _ => Supplied::Right,
    }
}

/// How a supply of this kind can be.
pub fn every_supplied(kind: u8) -> Vec<Supplied> {
    let wanted = supply_of_kind(kind, EVERY_CHECKSUM_BITS[0]);
    let mut ways = vec![Supplied::Right, Supplied::Empty, Supplied::Long];
    if wanted.has_flag {
        ways.extend([Supplied::No, Supplied::BadFlag]);
    }
    if wanted.bytes > 1 {
        ways.push(Supplied::Short);
    }
    if wanted.has_flag && wanted.bytes > 1 {
        ways.push(Supplied::LoneNo);
    }
    ways
}

pub const MOST_KIND: u8 = 10;

/// The kinds that ASK can tell in this situation, 0 being none.
pub fn kinds(situation: Situation) -> &'static [u8] {
    match situation {
        Situation::PreInitialised => &[0, 1],
        Situation::Closed => &[0, 2, 4],
        Situation::Pending => &[0, 2, 4, 5],
        Situation::Opened => &[0, 2, 3, 4],
        Situation::Authenticated => &[0, 2, 6, 7, 8, 9, 10],
    }
}

/// The command that reads this kind of supply.
pub fn reader(kind: u8) -> Name {
    match kind {
        FOR_INIT => Name::Init,
        FOR_OPEN => Name::Open,
        FOR_MUTUAL => Name::Mutual,
        FOR_PAIR_FIRST | FOR_PAIR_FINAL => Name::Pair,
        FOR_LOAD => Name::Load,
        FOR_DERIVE => Name::Derive,
        FOR_SIGN => Name::Sign,
        FOR_EXPORT => Name::Export,
        FOR_MNEMONIC => Name::Mnemonic,
        _ => panic!("no rule has the kind {kind}"),
    }
}
