//! Field 24 of the stored record, in all four forms of a record: filled and free slots, every length, flags and keys that no slot has, every
//! cut. What is wanted is told here, apart from the model. Lengths are in bytes.

use crate::both::{hex, Both};
use crate::directed::filled;
use crate::records::*;
use crate::states::{random_path, sound_card, tap_data};
use outside::model::card::*;
use outside::model::engine::*;
use outside::model::record::record_of;
use outside::model::status::*;
use outside::random::choice::{array, pick};
use outside::random::Random;

/// The lengths of field 24 that are tried: all up to some more than those of nine slots.
const FIELD_BYTES: usize = 300;
/// The form, and the least and the most that a record has in it.
const LENGTHS: [(RecordForm, usize, usize); 4] = [
    (EVERY_RECORD_FORM[0], 438, 773),
    (EVERY_RECORD_FORM[1], 435, 547),
    (EVERY_RECORD_FORM[2], 339, 674),
    (EVERY_RECORD_FORM[3], 336, 448),
];

pub fn run(both: &mut Both, seed: u64) {
    both.walk = "the fields of slots".to_string();
    let mut random = Random::new(seed.rotate_left(59));
    let random = &mut random;
    for (form, least_bytes, most_bytes) in LENGTHS {
        fillings(both, random, form, least_bytes, most_bytes);
        damaged_slots(both, random, form);
        lengths(both, random, form);
        cuts(both, random, form);
    }
}

fn fail(what: &str, bytes: &[u8]) -> ! {
    println!("THE FIELDS OF SLOTS: {what}: {}", hex(bytes));
    std::process::exit(1);
}

/// READ takes the record and gives this card, and WRITE of it writes these bytes.
fn is_taken(both: &mut Both, random: &mut Random, record: &[u8], wanted: &Card, rewritten: &[u8]) {
    let (refusal, card) = both.read(record);
    if refusal != NOT_REFUSED || card != *wanted {
        fail(&format!("READ gave {refusal} and {card:?}"), record);
    }
    let mut buffer = random.bytes(WRITE_ROOM_BYTES);
    let told = both.write(&card, &mut buffer);
    if told.refusal != NOT_REFUSED || buffer[..told.count] != *rewritten {
        fail(&format!("WRITE gave {told:?} and {}", hex(&buffer[..told.count])), record);
    }
}

fn is_refused(both: &mut Both, record: &[u8]) {
    let (refusal, card) = both.read(record);
    if refusal != NOT_A_RECORD || card != Card::fresh([0; UID_BYTES], [0; POINT_BYTES]) {
        fail(&format!("READ gave {refusal}"), record);
    }
}

/// A sound card as READ gives one, with this kind of key, the slots as told and this tap record.
fn stored_card(random: &mut Random, key_kind: u8, is_filled: impl Fn(usize) -> bool, tap: TapRecord) -> Card {
    let mut card = sound_card(random);
    card.power_up();
    card.key_kind = key_kind;
    card.key_uid = if key_kind == NO_KEY { [0; KEY_UID_BYTES] } else { array(random) };
    card.current_path = if key_kind == EXTENDED_KEY {
        random_path(random)
    } else {
        Path::EMPTY
    };
    card.tap = tap;
    for index in 0..SLOTS_NOW {
        card.slots[index] = if is_filled(index) { filled(random) } else { Slot::FREE };
    }
    card
}

/// The card that is left of this one in a record of this form: what has no place there is free, or none.
fn left_in(form: RecordForm, card: &Card) -> Card {
    let mut left = *card;
    left.slots[form.slots..].fill(Slot::FREE);
    if !form.tapped {
        left.tap = TapRecord::NONE;
    }
    left
}

/// Each choice of filled and free slots, with each kind of key, without a tap record, with the shortest and with the longest. Every record
/// has a length of its form, and the least and the most are met.
fn fillings(both: &mut Both, random: &mut Random, form: RecordForm, least_bytes: usize, most_bytes: usize) {
    for chosen in 0..1 << SLOTS_NOW {
        let tap_bytes = pick(random, &[0, 2, TAP_BYTES]);
        let tap = if tap_bytes == 0 { vec![] } else { tap_data(random, tap_bytes) };
        let key_kind = [NO_KEY, SINGLE_KEY, EXTENDED_KEY][chosen % 3];
        let card = stored_card(random, key_kind, |index| chosen >> index & 1 == 1, TapRecord::of(&tap));
        let record = record_in(form, &card);
        let left = left_in(form, &card);
        if !(least_bytes..=most_bytes).contains(&record.len()) {
            fail("the record has another length", &record);
        }
        is_taken(both, random, &record, &left, &record_of(&left));
        if renewed(&record) != record_of(&left) {
            fail("the record is renewed to another one", &record);
        }
    }
    let least = stored_card(random, NO_KEY, |_| false, TapRecord::NONE);
    let least = Card {
        pinless_path: Path::EMPTY,
        ..least
    };
    let most_tap = TapRecord::of(&tap_data(random, TAP_BYTES));
    let most = stored_card(random, EXTENDED_KEY, |_| true, most_tap);
    let longest_path = Path::of(&random.bytes(PATH_BYTES));
    let most = Card {
        current_path: longest_path,
        pinless_path: longest_path,
        ..most
    };
    for (card, wanted_bytes) in [(least, least_bytes), (most, most_bytes)] {
        let record = record_in(form, &card);
        if record.len() != wanted_bytes {
            fail(&format!("the record has not {wanted_bytes} bytes"), &record);
        }
        let left = left_in(form, &card);
        is_taken(both, random, &record, &left, &record_of(&left));
    }
}

/// Where field 24 begins: its tag.
fn slots_at(record: &[u8]) -> usize {
    let before = [1, UID_BYTES, POINT_BYTES, PIN_BYTES, PUK_BYTES, SECRET_BYTES, 2];
    let at = before.iter().map(|content_bytes| HEAD_BYTES + content_bytes).sum();
    if record[at] != PAIRING_SLOTS {
        fail("field 24 is somewhere else", record);
    }
    at
}

/// Every slot of the form with every flag that is none, and free with one byte of its key not zero: no records. Filled, with any key, also
/// one of zeros: a record, and the card has this slot.
fn damaged_slots(both: &mut Both, random: &mut Random, form: RecordForm) {
    for index in 0..form.slots {
        let card = stored_card(random, SINGLE_KEY, |other| other == index, TapRecord::NONE);
        let record = record_in(form, &card);
        let flag_at = slots_at(&record) + HEAD_BYTES + index * SLOT_BYTES;
        for flag in 2..=0xff {
            let mut changed = record.clone();
            changed[flag_at] = flag;
            is_refused(both, &changed);
        }
        for key in [array(random), [0xff; 32], [0; 32]] {
            let mut changed = record.clone();
            changed[flag_at + 1..][..32].copy_from_slice(&key);
            let mut wanted = card;
            wanted.slots[index].key = key;
            is_taken(both, random, &changed, &wanted, &record_of(&wanted));
        }
        let mut freed = record.clone();
        freed[flag_at..][..SLOT_BYTES].fill(0);
        let mut wanted = card;
        wanted.slots[index] = Slot::FREE;
        is_taken(both, random, &freed, &wanted, &record_of(&wanted));
        for at in flag_at + 1..flag_at + SLOT_BYTES {
            let mut changed = freed.clone();
            changed[at] = 1 << random.below(8);
            is_refused(both, &changed);
        }
    }
}

/// Whole slots, filled or free, as many as there are in so many bytes, and zeros after them.
fn slots_content(random: &mut Random, bytes: usize) -> Vec<u8> {
    let mut content = Vec::new();
    while content.len() + SLOT_BYTES <= bytes {
        let is_filled = random.below(2) == 0;
        content.push(u8::from(is_filled));
        content.extend(if is_filled { random.bytes(32) } else { vec![0; 32] });
    }
    content.resize(bytes, 0);
    content
}

/// Field 24 of each length, of slots as they have to be as far as they go: 165 and 264 bytes are taken. Then a head that tells the other of
/// these lengths, or 256 fewer or more, or its two bytes in the other order.
fn lengths(both: &mut Both, random: &mut Random, form: RecordForm) {
    for bytes in 0..=FIELD_BYTES {
        let card = stored_card(random, EXTENDED_KEY, |_| false, TapRecord::NONE);
        let record = record_in(form, &card);
        let at = slots_at(&record);
        let (before, after) = (&record[..at], &record[at + HEAD_BYTES + form.slots * SLOT_BYTES..]);
        let content = slots_content(random, bytes);
        let with_head = |told: u16| [before, &[PAIRING_SLOTS], &told.to_be_bytes(), &content, after].concat();
        let told = bytes as u16;
        let record = with_head(told);
        if [165, 264].contains(&bytes) {
            let mut wanted = card;
            for (slot, stored) in wanted.slots.iter_mut().zip(content.chunks(SLOT_BYTES)) {
                slot.filled = stored[0];
                slot.key.copy_from_slice(&stored[1..]);
            }
            is_taken(both, random, &record, &wanted, &record_of(&wanted));
        } else {
            is_refused(both, &record);
        }
        for other in [165, 264, told ^ 0x100, told.swap_bytes()] {
            if other != told {
                is_refused(both, &with_head(other));
            }
        }
    }
}

/// Each cut of a record: before field 34 it is one of the form without it, and else no record.
fn cuts(both: &mut Both, random: &mut Random, form: RecordForm) {
    for tap_bytes in [2, TAP_BYTES] {
        let tap = TapRecord::of(&tap_data(random, tap_bytes));
        let card = stored_card(random, EXTENDED_KEY, |index| index % 2 == 1, tap);
        let record = record_in(form, &card);
        let untapped = RecordForm { tapped: false, ..form };
        let untapped_bytes = record_in(untapped, &card).len();
        for bytes in 0..record.len() {
            if bytes == untapped_bytes {
                let left = left_in(untapped, &card);
                is_taken(both, random, &record[..bytes], &left, &record_of(&left));
            } else {
                is_refused(both, &record[..bytes]);
            }
        }
    }
}
