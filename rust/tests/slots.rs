//! The eight pairing slots: pairing until they are full, the indexes that OPEN and UNPAIR take, and the four forms of a stored record that
//! READ takes (docs/RULES.md). The numbers are written out here, apart from the crate's own.

mod common;

use common::*;
use treadlewisp::command::*;
use treadlewisp::*;

/// Where field 24 begins in the record of an initialised card: after the fields 10 to 23, 91 and 64 bytes.
const SLOTS_FIELD_AT: usize = 91 + 64;
/// The field without its head, in bytes: of a card, and of a card up to version 0.5.0.
const SLOTS_FIELD_BYTES: usize = 264;
const SLOTS_FIELD_BEFORE_BYTES: usize = 165;

fn open_command(index: u8) -> Vec<u8> {
    plain_command(card_header(OPEN, index), &POINT)
}

/// SELECT's count of free slots, on a copy of the card.
fn free_slots(life: &Life) -> u8 {
    let answer = life.clone().plain(&select_command());
    let at = 2 + 18 + 67 + 4;
    assert_eq!(answer[at..at + 2], [0x02, 0x01]);
    answer[at + 2]
}

/// A card with all slots filled, the last one's channel open and the PIN verified.
fn full() -> Life {
    let mut life = Life::initialised();
    for index in 0..8 {
        assert_eq!(free_slots(&life), 8 - index);
        assert_eq!(life.pair(), index);
    }
    assert_eq!(free_slots(&life), 0);
    life.plain(&open_command(7));
    life.terminal = Session::new(&ENC_KEY, &MAC_KEY, &SEED_IV);
    life.mutual();
    assert_eq!(life.sealed_status(VERIFY, 0x00, PIN), StatusWord::SUCCESS);
    life
}

fn written(card: &Card) -> Vec<u8> {
    let mut buffer = vec![FILL; 773];
    assert_eq!(card.write(&mut buffer[1..]), Err(Refusal::Room));
    let count = card.write(&mut buffer).expect("WRITE");
    assert!(buffer[count..].iter().all(|&b| b == FILL));
    buffer.truncate(count);
    buffer
}

#[test]
fn the_numbers() {
    assert_eq!((SLOTS, SLOTS_BEFORE, CARD_BYTES), (8, 5, 852));
    assert_eq!((RECORD_FRESH_BYTES, RECORD_MIN_BYTES, RECORD_MAX_BYTES), (91, 438, 773));
    assert_eq!((RECORD_OLD_MIN_BYTES, RECORD_OLD_MAX_BYTES, WRITE_ROOM_BYTES), (336, 674, 773));
}

#[test]
fn eight_pairings_and_no_ninth() {
    let mut life = full();
    life.card.reset().expect("RESET");
    let one_more = plain_command(card_header(PAIR, P1_PAIR_FIRST), &[0x0F; KEY_BYTES]);
    let before = life.card.clone();
    assert_eq!(life.plain(&one_more), [0x6A, 0x84]);
    assert_eq!(life.card, before);
    assert!(life.card.slots().iter().all(Slot::is_filled));
}

/// Every index: a card has the slots 0 to 7, and 8 is none, though it has eight.
#[test]
fn every_index() {
    let life = full();
    for index in 0..=0xFF {
        let mut opened = life.clone();
        let mut unpaired = life.clone();
        let answer = opened.plain(&open_command(index));
        let status = unpaired.sealed_status(UNPAIR, index, &[]);
        if index < 8 {
            assert!(answer.ends_with(&[0x90, 0x00]), "OPEN of {index}");
            assert_eq!(opened.card.stage(), Some(Stage::Opened));
            assert_eq!(status, StatusWord::SUCCESS, "UNPAIR of {index}");
            assert_eq!(free_slots(&unpaired), 1);
            assert!(!unpaired.card.slots()[usize::from(index)].is_filled());
            assert_eq!(unpaired.plain(&open_command(index)), [0x6A, 0x86], "OPEN of the free slot {index}");
        } else {
            assert_eq!(answer, [0x6A, 0x86], "OPEN of {index}");
            assert_eq!(opened.card.stage(), Some(Stage::Closed));
            assert_eq!(status, StatusWord::WRONG_PARAMETERS, "UNPAIR of {index}");
            assert_eq!(unpaired.card.slots(), life.card.slots());
        }
    }
}

/// Slots are freed in any order, also twice, and PAIR fills the first free one.
#[test]
fn freed_and_filled_again() {
    let mut life = full();
    for (freed, index) in [6, 2, 7, 0, 5, 1, 4, 3].into_iter().enumerate() {
        assert_eq!(life.sealed_status(UNPAIR, index, &[]), StatusWord::SUCCESS);
        assert_eq!(life.sealed_status(UNPAIR, index, &[]), StatusWord::SUCCESS);
        assert_eq!(usize::from(free_slots(&life)), freed + 1);
    }
    let mut life = full();
    for index in [6, 2] {
        assert_eq!(life.sealed_status(UNPAIR, index, &[]), StatusWord::SUCCESS);
    }
    life.card.reset().expect("RESET");
    assert_eq!((life.pair(), life.pair()), (2, 6));
    assert_eq!(free_slots(&life), 0);
}

/// A record with another content of field 24, and with or without its field 34, which is empty.
fn with_slots(record: &[u8], content: &[u8], tapped: bool) -> Vec<u8> {
    let (before, after) = record.split_at(SLOTS_FIELD_AT);
    let after = &after[FIELD_HEAD_BYTES + SLOTS_FIELD_BYTES..];
    let after = if tapped { after } else { &after[..after.len() - FIELD_HEAD_BYTES] };
    let length = u16::try_from(content.len()).expect("two bytes").to_be_bytes();
    [before, &[0x24], &length, content, after].concat()
}

/// Each choice of filled slots in each form: READ gives the card, and WRITE the record with 264 bytes of slots and an empty field 34. Of the
/// older length only the slots 0 to 4 are told, and the others are free.
#[test]
fn the_four_forms() {
    for chosen in 0..=0xFF_u8 {
        let mut bytes = Life::initialised().card.to_bytes();
        let slots = place("slots");
        for index in (0..8).filter(|index| chosen >> index & 1 == 1) {
            bytes[slots.start + index * SLOT_BYTES..][..SLOT_BYTES].fill(0x60 + index as u8);
            bytes[slots.start + index * SLOT_BYTES] = 1;
        }
        let card = Card::from_bytes(&bytes);
        let record = written(&card);
        assert_eq!(record.len(), 438);
        assert_eq!(record[SLOTS_FIELD_AT..][..FIELD_HEAD_BYTES], [0x24, 0x01, 0x08]);
        let content = &bytes[slots.clone()];
        assert_eq!(record[SLOTS_FIELD_AT + FIELD_HEAD_BYTES..][..SLOTS_FIELD_BYTES], *content);
        let mut fewer = bytes;
        fewer[slots.start + SLOTS_FIELD_BEFORE_BYTES..slots.end].fill(0);
        let fewer = Card::from_bytes(&fewer);
        for (content_bytes, tapped, record_bytes, card) in [
            (SLOTS_FIELD_BYTES, true, 438, &card),
            (SLOTS_FIELD_BYTES, false, 435, &card),
            (SLOTS_FIELD_BEFORE_BYTES, true, 339, &fewer),
            (SLOTS_FIELD_BEFORE_BYTES, false, 336, &fewer),
        ] {
            let stored = with_slots(&record, &content[..content_bytes], tapped);
            assert_eq!(stored.len(), record_bytes);
            assert_eq!(Card::read(&stored).as_ref(), Ok(card));
            let zeros = vec![0; SLOTS_FIELD_BYTES - content_bytes];
            let renewed = with_slots(&record, &[&content[..content_bytes], &zeros].concat(), true);
            assert_eq!(written(card), renewed);
            assert_eq!(tap(&stored, &[0x00, 0x00]), Ok(&[0x00, 0x00][..]));
        }
    }
}

/// Field 24 of each length: READ takes 165 and 264 bytes alone.
#[test]
fn every_length_of_the_field() {
    let record = written(&Life::initialised().card);
    for content_bytes in 0..=300 {
        for tapped in [false, true] {
            let stored = with_slots(&record, &vec![0; content_bytes], tapped);
            let read = Card::read(&stored);
            if [165, 264].contains(&content_bytes) {
                assert_eq!(written(&read.expect("READ")), record);
            } else {
                assert_eq!(read, Err(Refusal::NotRecord), "{content_bytes} bytes");
                assert_eq!(tap(&stored, &[]), Err(Refusal::NotRecord));
            }
        }
    }
}

/// Each form cut at each place: before field 34 it is a record, elsewhere none. And each slot with a flag that is none, and free with a key.
#[test]
fn damaged_records() {
    let record = written(&full().card);
    let content = &record[SLOTS_FIELD_AT + FIELD_HEAD_BYTES..][..SLOTS_FIELD_BYTES];
    for content_bytes in [SLOTS_FIELD_BYTES, SLOTS_FIELD_BEFORE_BYTES] {
        let content = &content[..content_bytes];
        let stored = with_slots(&record, content, true);
        let untapped = with_slots(&record, content, false);
        for cut in 0..stored.len() {
            assert_eq!(Card::read(&stored[..cut]).is_ok(), cut == untapped.len(), "cut to {cut} bytes");
        }
        for at in (0..content_bytes).step_by(SLOT_BYTES) {
            for flag in (0..=0xFF).filter(|&flag| flag != 1) {
                let mut changed = content.to_vec();
                changed[at] = flag;
                for tapped in [false, true] {
                    let damaged = with_slots(&record, &changed, tapped);
                    assert_eq!(Card::read(&damaged), Err(Refusal::NotRecord), "flag {flag} at {at}");
                }
            }
        }
    }
}
