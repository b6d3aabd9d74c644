//! Field 34 of the stored record, there and missing, and the tap read: every length, every damaged byte, every cut, bytes behind it, and any
//! factory record. Field 24 has either number of slots. What is wanted is told here, apart from the model. Lengths are in bytes.

use crate::both::{hex, Both};
use crate::directed::ready_card;
use crate::may_occur::Situation;
use crate::records::{record_in, renewed, RecordForm, HEAD_BYTES, SLOTS_NOW, SLOTS_THEN};
use crate::states::{random_tap_data, sound_card, tap_data};
use crate::taps::{fail, without_key};
use outside::model::card::*;
use outside::model::engine::*;
use outside::model::record::record_of;
use outside::model::status::*;
use outside::random::choice::{array, byte, pick, some_bytes};
use outside::random::Random;

const FIELD: u8 = 0x34;
/// The lengths of field 34 that are tried: all up to some more than a length of one byte can tell.
const FIELD_BYTES: usize = 300;
/// What WRITE writes of an initialised card: the least, and the most, which is its room.
const LEAST_RECORD_BYTES: usize = 438;
const MOST_RECORD_BYTES: usize = 773;

pub fn run(both: &mut Both, seed: u64) {
    both.walk = "the fields of tap records".to_string();
    let mut random = Random::new(seed.rotate_left(47));
    let random = &mut random;
    lengths(both, random);
    fields(both, random);
    damaged_bytes(both, random);
    ends(both, random);
    factories(both, random);
}

/// What WRITE writes of a card, with just the room that it takes; with one byte less it is refused, however short the record is.
pub fn written(both: &mut Both, random: &mut Random, card: &Card) -> Vec<u8> {
    let mut buffer = random.bytes(MOST_RECORD_BYTES - 1);
    let told = both.write(card, &mut buffer);
    if told.refusal != SHORT_BUFFER {
        fail("WRITE took a buffer that is too short", &buffer);
    }
    buffer.push(byte(random));
    let told = both.write(card, &mut buffer);
    if told.refusal != NOT_REFUSED {
        fail("WRITE refused a buffer that is long enough", &buffer);
    }
    buffer.truncate(told.count);
    buffer
}

fn field(content: &[u8]) -> Vec<u8> {
    [&[FIELD], &(content.len() as u16).to_be_bytes()[..], content].concat()
}

/// The tap read gives the factory record whole, whatever it is.
pub fn gives_factory(both: &mut Both, random: &mut Random, record: &[u8]) {
    let factory = some_bytes(random, 0, 300);
    let tapped = both.tap(record, &factory);
    if (tapped.refusal, tapped.source, tapped.offset, tapped.length) != (NOT_REFUSED, Source::Factory, 0, factory.len()) {
        fail(
            &format!("{tapped:?} instead of the factory record, {} bytes", factory.len()),
            record,
        );
    }
}

/// READ takes these bytes, the card has this tap record, WRITE writes the form of today, and the tap read finds its content where it lies.
fn is_taken(both: &mut Both, random: &mut Random, old: &[u8], after: &[u8], content: &[u8]) {
    let record = [old, after].concat();
    let (refusal, card) = both.read(&record);
    if refusal != NOT_REFUSED || card.tap != TapRecord::of(content) {
        fail(
            &format!("READ gave {refusal} and {:?} instead of {}", card.tap, hex(content)),
            &record,
        );
    }
    let rewritten = written(both, random, &card);
    if rewritten != renewed(&[old, &field(content)].concat()) {
        fail("WRITE did not write the form of today", &rewritten);
    }
    for record in [record, rewritten] {
        if content.is_empty() {
            gives_factory(both, random, &record);
            continue;
        }
        let tapped = both.tap(&record, &some_bytes(random, 0, 300));
        let place = (NOT_REFUSED, Source::Record, record.len() - content.len(), content.len());
        if (tapped.refusal, tapped.source, tapped.offset, tapped.length) != place {
            fail(&format!("{tapped:?} instead of {place:?}"), &record);
        }
        if &record[tapped.offset..][..tapped.length] != content {
            fail("the part has other bytes", &record);
        }
    }
}

/// READ gives 8 and FRESH of zeros, and the tap read 8 and an empty part, whatever the factory record is.
fn is_no_record(both: &mut Both, random: &mut Random, record: &[u8]) {
    let (refusal, card) = both.read(record);
    if refusal != NOT_A_RECORD || card != Card::fresh([0; UID_BYTES], [0; POINT_BYTES]) {
        fail(&format!("READ gave {refusal}"), record);
    }
    let tapped = both.tap(record, &some_bytes(random, 0, 300));
    if (tapped.refusal, tapped.source, tapped.offset, tapped.length) != (NOT_A_RECORD, Source::None, 0, 0) {
        fail(&format!("{tapped:?} instead of 8"), record);
    }
}

/// The record of an initialised card as far as field 33, which is a form of before.
fn old_record_of(random: &mut Random, card: &Card) -> Vec<u8> {
    let slots = pick(random, &[SLOTS_NOW, SLOTS_THEN]);
    record_in(RecordForm { slots, tapped: false }, card)
}

fn old_record(random: &mut Random) -> Vec<u8> {
    let mut card = sound_card(random);
    if random.below(3) == 0 {
        without_key(&mut card);
    }
    old_record_of(random, &card)
}

/// Records without field 34, and with it each length of it; the least and the most that WRITE writes.
fn lengths(both: &mut Both, random: &mut Random) {
    for bytes in 2..=TAP_BYTES {
        let old = old_record(random);
        is_taken(both, random, &old, &[], &[]);
        is_taken(both, random, &old, &field(&[]), &[]);
        let content = tap_data(random, bytes);
        is_taken(both, random, &old, &field(&content), &content);
    }
    let mut card = ready_card(random, Situation::Authenticated);
    (card.current_path, card.pinless_path) = (Path::of(&[7; PATH_BYTES]), Path::of(&[7; PATH_BYTES]));
    card.tap = TapRecord::of(&tap_data(random, TAP_BYTES));
    if written(both, random, &card).len() != MOST_RECORD_BYTES {
        fail("the longest record has another length", &record_of(&card));
    }
    card.tap = TapRecord::NONE;
    without_key(&mut card);
    if written(both, random, &card).len() != LEAST_RECORD_BYTES {
        fail("the shortest record has another length", &record_of(&card));
    }
    let fresh = Card::fresh(array(random), array(random));
    let record = written(both, random, &fresh);
    if record != record_of(&fresh) || record.len() != 91 {
        fail("the record before INIT has another length", &record);
    }
    gives_factory(both, random, &record);
}

/// Field 34 of each length, its first two bytes those that SET NDEF would take: 0 and 2 to 223 are taken. Then content one byte shorter or
/// longer than its head tells, a head that tells 256 more, a wrong count, and the count in the other order.
fn fields(both: &mut Both, random: &mut Random) {
    for bytes in 0..=FIELD_BYTES {
        let old = old_record(random);
        let mut content = random.bytes(bytes);
        if bytes >= 2 {
            content[..2].copy_from_slice(&((bytes - 2) as u16).to_be_bytes());
        }
        let whole = field(&content);
        if bytes == 0 || (2..=TAP_BYTES).contains(&bytes) {
            is_taken(both, random, &old, &whole, &content);
        } else {
            is_no_record(both, random, &[&old[..], &whole].concat());
        }
        let mut wrong = vec![whole[..whole.len() - 1].to_vec(), [&whole[..], &[0x00]].concat()];
        let mut longer = whole.clone();
        longer[1] ^= 0x01;
        wrong.push(longer);
        for told in [bytes, bytes.wrapping_sub(1), bytes.wrapping_sub(3), bytes << 8, 0xffff] {
            let is_right = told as u16 == (bytes as u16).wrapping_sub(2);
            if bytes >= 2 && !is_right {
                let mut counted = whole.clone();
                counted[HEAD_BYTES..][..2].copy_from_slice(&(told as u16).to_be_bytes());
                wrong.push(counted);
            }
        }
        for after in wrong {
            is_no_record(both, random, &[&old[..], &after].concat());
        }
    }
    // One byte alone is never a tap record, whatever it is.
    for first in 0..=0xff {
        let old = old_record(random);
        is_no_record(both, random, &[&old[..], &field(&[first])].concat());
    }
}

/// Each byte of field 34 with each other value: the head and the count are as they have to be, the rest may be anything. And the field cut
/// at each place: to nothing it is a record without it, and else no record.
fn damaged_bytes(both: &mut Both, random: &mut Random) {
    for bytes in [0, 3] {
        let old = old_record(random);
        let content = if bytes == 0 { vec![] } else { tap_data(random, bytes) };
        let whole = field(&content);
        for at in 0..whole.len() {
            for value in (0..=0xff).filter(|&value| value != whole[at]) {
                let mut changed = whole.clone();
                changed[at] = value;
                if at >= HEAD_BYTES + 2 {
                    is_taken(both, random, &old, &changed, &changed[HEAD_BYTES..]);
                } else {
                    is_no_record(both, random, &[&old[..], &changed].concat());
                }
            }
        }
    }
    let old = old_record(random);
    let content = tap_data(random, TAP_BYTES);
    let whole = field(&content);
    for at in 1..whole.len() {
        is_no_record(both, random, &[&old[..], &whole[..at]].concat());
    }
    for at in 0..whole.len() {
        let mut changed = whole.clone();
        changed[at] ^= 1 << random.below(8);
        if at >= HEAD_BYTES + 2 {
            is_taken(both, random, &old, &changed, &changed[HEAD_BYTES..]);
        } else {
            is_no_record(both, random, &[&old[..], &changed].concat());
        }
    }
}

/// Bytes behind field 34, a second one, one before field 33, another tag in its place, and a field 34 on a record before INIT: no records.
fn ends(both: &mut Both, random: &mut Random) {
    let content = random_tap_data(random);
    for tail in [
        field(&[]),
        field(&content),
        vec![0x00],
        vec![FIELD],
        vec![FIELD, 0x00],
        vec![0x35, 0x00, 0x00],
    ] {
        for own in [field(&[]), field(&content)] {
            let old = old_record(random);
            is_no_record(both, random, &[&old[..], &own, &tail].concat());
        }
        let fresh = record_of(&Card::fresh(array(random), array(random)));
        is_no_record(both, random, &[&fresh[..], &tail].concat());
    }
    for tag in (0..=0xff).filter(|&tag| tag != FIELD) {
        let old = old_record(random);
        for own in [field(&[]), field(&content)] {
            let mut other = own.clone();
            other[0] = tag;
            is_no_record(both, random, &[&old[..], &other].concat());
        }
    }
    let mut card = ready_card(random, Situation::Authenticated);
    card.pinless_path = Path::EMPTY;
    let old = old_record_of(random, &card);
    let (before, pinless) = old.split_at(old.len() - HEAD_BYTES);
    for own in [field(&[]), field(&content)] {
        is_no_record(both, random, &[before, &own, pinless].concat());
        is_no_record(both, random, &[before, &own].concat());
        is_no_record(both, random, &own);
    }
    is_no_record(both, random, &[]);
}

/// Factory records of any bytes and lengths, which nothing looks at: empty, a long one, a stored record, and the lent record itself.
fn factories(both: &mut Both, random: &mut Random) {
    let old = old_record(random);
    let own = random_tap_data(random);
    let with_own = [&old[..], &field(&own)].concat();
    for factory in [
        vec![],
        vec![0x00, 0x00],
        random.bytes(70_000),
        with_own.clone(),
        old.clone(),
        old[..100].to_vec(),
    ] {
        for (record, refusal, source, offset, length) in [
            (&old[..], NOT_REFUSED, Source::Factory, 0, factory.len()),
            (&with_own, NOT_REFUSED, Source::Record, old.len() + HEAD_BYTES, own.len()),
            (&old[1..], NOT_A_RECORD, Source::None, 0, 0),
            (&[], NOT_A_RECORD, Source::None, 0, 0),
        ] {
            let tapped = both.tap(record, &factory);
            if (tapped.refusal, tapped.source, tapped.offset, tapped.length) != (refusal, source, offset, length) {
                fail(&format!("{tapped:?}"), record);
            }
        }
    }
    // The same memory is lent as both records.
    for (bytes, source) in [(&old, Source::Factory), (&with_own, Source::Record)] {
        if both.tap(bytes, bytes).source != source {
            fail("lent as both records", bytes);
        }
    }
}
