//! Stored records for READ: of sound cards in every form, of cards with one rule of soundness broken, with damaged fields or bytes, cut off,
//! and random. The forms are told here, apart from the model. Lengths are in bytes.

use crate::states::{break_rule, sound_card, RULES};
use outside::model::card::{Card, NO, PATH_BYTES, TAP_BYTES};
use outside::model::record::record_of;
use outside::random::choice::{array, byte, chance, damaged, pick, some_bytes};
use outside::random::Random;

pub const HEAD_BYTES: usize = 3;
/// A slot in field 24: its flag and its key.
pub const SLOT_BYTES: usize = 33;
pub const PAIRING_SLOTS: u8 = 0x24;
const TAP: u8 = 0x34;
/// The slots of a card in field 24, and those of a card up to version 0.5.0.
pub const SLOTS_NOW: usize = 8;
pub const SLOTS_THEN: usize = 5;

/// A form in which READ takes the record of an initialised card: how many slots field 24 holds, and whether field 34 is there.
#[derive(Clone, Copy, PartialEq, Eq, PartialOrd, Ord, Debug)]
pub struct RecordForm {
    pub slots: usize,
    pub tapped: bool,
}

/// The form that WRITE writes, and the three of before.
pub const WRITTEN: RecordForm = form(SLOTS_NOW, true);
pub const EVERY_RECORD_FORM: [RecordForm; 4] = [WRITTEN, form(SLOTS_NOW, false), form(SLOTS_THEN, true), form(SLOTS_THEN, false)];

const fn form(slots: usize, tapped: bool) -> RecordForm {
    RecordForm { slots, tapped }
}

/// A field: its tag, the length that its head tells, and its content.
#[derive(Clone)]
struct Field {
    tag: u8,
    told_bytes: u16,
    content: Vec<u8>,
}

impl Field {
    fn has(&mut self, content: Vec<u8>) {
        self.told_bytes = content.len() as u16;
        self.content = content;
    }
}

/// The record of a card in this form. One of before has no place for the slots from the sixth on, or for a tap record, and does not tell
/// them; before INIT there is one form.
pub fn record_in(form: RecordForm, card: &Card) -> Vec<u8> {
    let mut fields = fields_of(&record_of(card));
    if card.initialised == NO {
        return joined(&fields);
    }
    for slots in fields.iter_mut().filter(|field| field.tag == PAIRING_SLOTS) {
        slots.has(slots.content[..form.slots * SLOT_BYTES].to_vec());
    }
    fields.retain(|field| form.tapped || field.tag != TAP);
    joined(&fields)
}

/// The form of a record that READ takes; none before INIT.
pub fn form_of_record(record: &[u8]) -> Option<RecordForm> {
    let fields = fields_of(record);
    let slots = fields.iter().find(|field| field.tag == PAIRING_SLOTS)?;
    let tapped = fields.iter().any(|field| field.tag == TAP);
    Some(form(slots.content.len() / SLOT_BYTES, tapped))
}

/// A record that READ takes, as WRITE writes it: zeros after the slots of before, up to 264 bytes, and an empty field 34 where none was.
pub fn renewed(record: &[u8]) -> Vec<u8> {
    let Some(form) = form_of_record(record) else {
        return record.to_vec();
    };
    let mut fields = fields_of(record);
    for slots in fields.iter_mut().filter(|field| field.tag == PAIRING_SLOTS) {
        let zeros = vec![0; 264 - slots.content.len()];
        slots.has([&slots.content[..], &zeros].concat());
    }
    let added: &[u8] = if form.tapped { &[] } else { &[TAP, 0x00, 0x00] };
    [&joined(&fields), added].concat()
}

/// Stored records in the form that is written and in those of before.
pub fn random_record(random: &mut Random, from: &Card) -> Vec<u8> {
    let card = match random.below(10) {
        0 => Card::fresh(array(random), array(random)),
        1..=4 => *from,
        _ => sound_card(random),
    };
    let form = pick(random, &EVERY_RECORD_FORM);
    let record = record_in(form, &card);
    match random.below(12) {
        0 | 1 => record,
        2 | 3 => damaged(random, &record),
        4 => record[..random.below(record.len() + 1)].to_vec(),
        5 => some_bytes(random, 0, 860),
        6 | 7 => record_of_unsound(random, &card),
        _ => with_damaged_field(random, &record),
    }
}

/// The record of a card with one rule broken, its paths and its tap record cut to what can be written.
fn record_of_unsound(random: &mut Random, card: &Card) -> Vec<u8> {
    let mut broken = *card;
    let rule = random.below(RULES);
    break_rule(random, &mut broken, rule);
    for path in [&mut broken.current_path, &mut broken.pinless_path] {
        path.used_bytes = path.used_bytes.min(PATH_BYTES as u8);
    }
    broken.tap.used_bytes = broken.tap.used_bytes.min(TAP_BYTES as u8);
    record_of(&broken)
}

fn fields_of(record: &[u8]) -> Vec<Field> {
    let mut fields = Vec::new();
    let mut left = record;
    while !left.is_empty() {
        let told_bytes = u16::from_be_bytes([left[1], left[2]]);
        let (whole, rest) = left.split_at(HEAD_BYTES + told_bytes as usize);
        fields.push(Field {
            tag: whole[0],
            told_bytes,
            content: whole[HEAD_BYTES..].to_vec(),
        });
        left = rest;
    }
    fields
}

fn joined(fields: &[Field]) -> Vec<u8> {
    let bytes = fields
        .iter()
        .map(|field| [&[field.tag], &field.told_bytes.to_be_bytes()[..], &field.content].concat());
    bytes.collect::<Vec<_>>().concat()
}

/// The record with each field but the last in the place of the next one, left out, and doubled. The last is doubled alone: without its
/// field 34 a record is one of before.
pub fn moved_fields(record: &[u8]) -> Vec<Vec<u8>> {
    let fields = fields_of(record);
    let mut moved = Vec::new();
    for at in 0..fields.len() - 1 {
        let (mut swapped, mut short, mut doubled) = (fields.clone(), fields.clone(), fields.clone());
        swapped.swap(at, at + 1);
        short.remove(at);
        doubled.insert(at, fields[at].clone());
        moved.extend([swapped, short, doubled].iter().map(|fields| joined(fields)));
    }
    let last = fields.last().cloned();
    moved.push(joined(&fields.into_iter().chain(last).collect::<Vec<_>>()));
    moved
}

/// One field changed, moved, left out or doubled; mostly its head still tells the length of its content.
fn with_damaged_field(random: &mut Random, record: &[u8]) -> Vec<u8> {
    let mut fields = fields_of(record);
    let at = random.below(fields.len());
    let other = random.below(fields.len());
    match random.below(9) {
        0 => fields[at].tag = pick(random, &[0x10, 0x12, 0x13, 0x20, 0x24, 0x30, 0x33, 0x34, 0x35]),
        1 => fields.swap(at, other),
        2 => drop(fields.remove(at)),
        3 => fields.insert(other, fields[at].clone()),
        4 => {
            let bytes = pick(random, &[0, 1, 2, 4, 31, 32, 33, 39, 40, 41, 44, 222, 223, 224, 255, 256, 260, 288]);
            fields[at].has(random.bytes(bytes));
        }
        5 => {
            fields[at].told_bytes = fields[at]
                .told_bytes
                .wrapping_add(pick(random, &[1, 4, 99, 256, u16::MAX, u16::MAX - 98]))
        }
        6 => fields[at]
            .content
            .iter_mut()
            .take(1)
            .for_each(|first| *first = first.wrapping_add(1)),
        7 => change_slots(random, &mut fields),
        _ => change_content(random, &mut fields[at]),
    }
    joined(&fields)
}

/// Another number of whole slots in field 24, those that come free or filled, or some bytes fewer or more.
fn change_slots(random: &mut Random, fields: &mut [Field]) {
    for slots in fields.iter_mut().filter(|field| field.tag == PAIRING_SLOTS) {
        let mut content = slots.content.clone();
        while chance(random, 70) {
            content.push(pick(random, &[0, 1]));
            let is_filled = content.last() == Some(&1);
            content.extend(if is_filled {
                random.bytes(SLOT_BYTES - 1)
            } else {
                vec![0; SLOT_BYTES - 1]
            });
        }
        let cut = pick(random, &[0, 0, 1, SLOT_BYTES, 3 * SLOT_BYTES]);
        content.truncate(content.len() - cut);
        slots.has(content);
    }
}

/// A byte of the content becomes one that is mostly at the edge of what a field may hold.
fn change_content(random: &mut Random, field: &mut Field) {
    if !field.content.is_empty() {
        let place = random.below(field.content.len());
        let edge = pick(random, &[0, 1, 2, 3, 4, 5, 6, b'0' - 1, b'9' + 1]);
        field.content[place] = if chance(random, 80) { edge } else { byte(random) };
    }
}
