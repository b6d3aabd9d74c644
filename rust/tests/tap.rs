//! SET NDEF, the tap record of a card, field 34 of its stored record, and the tap read (docs/RULES.md).

mod common;

use common::*;
use treadlewisp::command::*;
use treadlewisp::*;

/// An empty message of 3 bytes, as the factory's tap record.
const FACTORY: [u8; 5] = [0x00, 0x03, 0xD0, 0x00, 0x00];

/// A channel in which the PIN was verified.
fn verified() -> Life {
    let mut life = Life::in_channel();
    assert_eq!(life.sealed_status(VERIFY, 0x00, PIN), StatusWord::SUCCESS);
    life
}

/// A tap record of so many bytes.
fn tap_record(bytes: usize) -> Vec<u8> {
    let after_count = bytes - TAP_COUNT_BYTES;
    let mut record = u16::try_from(after_count).expect("two bytes").to_be_bytes().to_vec();
    record.extend((0..after_count).map(|k| 0xFF - k as u8));
    record
}

fn written(card: &Card) -> Vec<u8> {
    let mut buffer = vec![FILL; WRITE_ROOM_BYTES];
    assert_eq!(card.write(&mut buffer[1..]), Err(Refusal::Room));
    let count = card.write(&mut buffer).expect("WRITE");
    assert!(buffer[count..].iter().all(|&b| b == FILL));
    buffer.truncate(count);
    buffer
}

/// Field 34 with this content.
fn field(content: &[u8]) -> Vec<u8> {
    let length = u16::try_from(content.len()).expect("two bytes").to_be_bytes();
    [&[0x34], &length[..], content].concat()
}

/// The record of a card with no key, without its field 34: a form that READ takes and WRITE does not write.
fn untapped_record() -> Vec<u8> {
    let record = written(&Life::initialised().card);
    assert_eq!(record.len(), RECORD_MIN_BYTES);
    record.strip_suffix(&[0x34, 0x00, 0x00]).expect("an empty field 34").to_vec()
}

/// The part lies in what was lent, at this place.
fn is_part(part: &[u8], of: &[u8], offset: usize, bytes: usize) {
    assert_eq!(part.as_ptr(), of[offset..].as_ptr());
    assert_eq!(part.len(), bytes);
}

/// The card after is the card before, but for the channel's IV and this tap record.
fn only_moved(before: &Card, after: &Card, tap: &[u8]) {
    let mut bytes = before.to_bytes();
    let (place_of_tap, iv) = (place("tap"), place("iv"));
    bytes[place_of_tap.clone()].fill(0);
    bytes[place_of_tap.start] = u8::try_from(tap.len()).expect("one byte");
    bytes[place_of_tap.start + 1..][..tap.len()].copy_from_slice(tap);
    bytes[iv.clone()].copy_from_slice(&after.to_bytes()[iv]);
    assert_eq!(after.to_bytes(), bytes);
    assert_eq!(after.tap_record().bytes(), tap);
    assert_eq!(after.tap_record().is_empty(), tap.is_empty());
}

#[test]
fn every_length() {
    let mut life = verified();
    assert!(life.card.tap_record().is_empty());
    for bytes in (TAP_COUNT_BYTES..=TAP_MAX_BYTES).chain([TAP_COUNT_BYTES, 40]) {
        let before = life.card.clone();
        let data = tap_record(bytes);
        assert_eq!(life.sealed_status(SET_NDEF, 0x00, &data), StatusWord::SUCCESS, "{bytes} bytes");
        only_moved(&before, &life.card, &data);
        let record = written(&life.card);
        assert_eq!(record.len(), RECORD_MIN_BYTES + bytes);
        is_part(tap(&record, &FACTORY).expect("a record"), &record, RECORD_MIN_BYTES, bytes);
        assert_eq!(Card::read(&record).expect("READ").tap_record().bytes(), data);
    }
}

/// The two bytes count those after them: not themselves, not the padded data, not Lc, with the high byte first.
#[test]
fn counts_that_are_wrong() {
    let mut life = verified();
    assert_eq!(life.sealed_status(SET_NDEF, 0x00, &[0x00, 0x00]), StatusWord::SUCCESS);
    for bytes in [0, 1] {
        for first in [0x00, 0x01, 0xFF] {
            let before = life.card.clone();
            assert_eq!(life.sealed_status(SET_NDEF, 0x00, &vec![first; bytes]), StatusWord::WRONG_DATA);
            only_moved(&before, &life.card, &[0x00, 0x00]);
        }
    }
    for bytes in TAP_COUNT_BYTES..=TAP_MAX_BYTES {
        let padded = (bytes / 16 + 1) * 16;
        let right = bytes - TAP_COUNT_BYTES;
        for told in [bytes, bytes - 1, right + 0x100, right << 8, padded, padded + MAC_BYTES, 0xFFFF] {
            if told == right {
                continue;
            }
            let mut data = tap_record(bytes);
            data[..TAP_COUNT_BYTES].copy_from_slice(&(told as u16).to_be_bytes());
            let before = life.card.clone();
            assert_eq!(
                life.sealed_status(SET_NDEF, 0x00, &data),
                StatusWord::WRONG_DATA,
                "{bytes} bytes, {told}"
            );
            only_moved(&before, &life.card, &[0x00, 0x00]);
        }
    }
}

/// P1 and P2 before the PIN, that before the data; no key and no supply.
#[test]
fn what_is_looked_at_first() {
    let mut ready = verified();
    let mut unverified = ready.clone();
    assert_eq!(unverified.sealed_status(VERIFY, 0x00, WRONG_PIN), StatusWord::TRIES_LEFT_2);
    let word = |life: &mut Life, p1, p2, data: &[u8]| {
        let before = life.card.clone();
        let opened = life.sealed_with_header([CLASS_CARD, SET_NDEF, p1, p2], data);
        only_moved(&before, &life.card, before.tap_record().bytes());
        StatusWord::of(&opened).expect("two bytes")
    };
    for data in [&[][..], &[0x00], &[0x00, 0x00], &[0x00, 0x01], &tap_record(20)] {
        for life in [&mut ready, &mut unverified] {
            for wrong in [0x01, 0x02, 0x80, 0xFF] {
                assert_eq!(word(life, wrong, 0x00, data), StatusWord::WRONG_PARAMETERS);
                assert_eq!(word(life, 0x00, wrong, data), StatusWord::WRONG_PARAMETERS);
            }
        }
        assert_eq!(word(&mut unverified, 0x00, 0x00, data), StatusWord::CONDITIONS_NOT_MET);
    }
    let command = ready.clone().seal(SET_NDEF, 0x00, &tap_record(20));
    let asked = ready.card.ask(&command, &mut [FILL; ASK_ROOM_BYTES]).expect("ASK");
    assert_eq!((asked.kind, asked.count), (SupplyKind::None, 0));
    assert_eq!(ready.card.key_kind(), Some(KeyKind::None));
}

/// Before INIT the instruction is unknown; without a channel it is refused.
#[test]
fn without_a_channel() {
    let bare = [CLASS_CARD, SET_NDEF, 0x00, 0x00];
    assert_eq!(Life::fresh().plain(&bare), [0x6D, 0x00]);
    assert_eq!(Life::initialised().plain(&bare), [0x69, 0x85]);
    let mut life = verified();
    assert_eq!(life.sealed_status(SET_NDEF, 0x00, &tap_record(9)), StatusWord::SUCCESS);
    assert_eq!(life.plain(&bare), [0x69, 0x82]);
    assert_eq!(life.card.stage(), Some(Stage::Closed));
    assert_eq!(life.plain(&bare), [0x69, 0x85]);
    assert_eq!(life.card.tap_record().bytes(), tap_record(9));
}

/// It is no secret, and shown by its bytes in use.
#[test]
fn what_debug_shows() {
    let mut life = verified();
    assert_eq!(format!("{:?}", life.card.tap_record()), "[]");
    assert_eq!(life.sealed_status(SET_NDEF, 0x00, &[0x00, 0x01, 0xAB]), StatusWord::SUCCESS);
    assert_eq!(format!("{:?}", life.card.tap_record()), "[00, 01, AB]");
    assert!(format!("{:?}", life.card).contains("tap_record: [00, 01, AB]"));
}

/// INIT starts with none; what is set then stays.
#[test]
fn what_keeps_it() {
    assert!(Life::initialised().card.tap_record().is_empty());
    let mut life = verified();
    let own = tap_record(33);
    assert_eq!(life.sealed_status(SET_NDEF, 0x00, &own), StatusWord::SUCCESS);
    let mut sent: Vec<(u8, u8, Vec<u8>)> = vec![
        (LOAD, P1_LOAD_SEED, vec![0x5E; 64]),
        (DERIVE, 0x00, vec![0x80, 0, 0, 0]),
        (SET_PINLESS_PATH, 0x00, vec![0x80, 0, 0, 0]),
        (SIGN, 0x00, vec![0x5F; 32]),
        (EXPORT, P1_EXPORT_DERIVE, EIP1581_PATH.to_vec()),
        (GET_STATUS, P1_STATUS_TRIES, vec![]),
        (CHANGE, P1_CHANGE_PUK, PUK.to_vec()),
        (CHANGE, P1_CHANGE_SECRET, vec![0x55; 32]),
        (CHANGE, P1_CHANGE_PIN, b"111111".to_vec()),
        (UNPAIR, 0x00, vec![]),
        (REMOVE, 0x00, vec![]),
    ];
    sent.extend([WRONG_PIN; 3].map(|wrong| (VERIFY, 0x00, wrong.to_vec())));
    sent.push((UNBLOCK, 0x00, [&PUK[..], PIN].concat()));
    for (instruction, p1, data) in sent {
        life.sealed(instruction, p1, &data);
        assert_eq!(life.card.tap_record().bytes(), own, "{instruction:02X}");
    }
    assert!(life.card.is_verified());
    life.plain(&select_command());
    assert_eq!((life.card.stage(), life.card.tap_record().bytes()), (Some(Stage::Closed), &own[..]));
    life.card.reset().expect("RESET");
    assert_eq!(life.card.tap_record().bytes(), own);
    assert_eq!(Card::read(&written(&life.card)), Ok(life.card));
}

/// Field 34 of every length: READ takes 0 and 2 to 223, with the count that SET NDEF would take, and the tap read follows it.
#[test]
fn every_length_of_the_field() {
    let old = untapped_record();
    for bytes in 0..=300 {
        let content = if bytes < 2 { vec![0; bytes] } else { tap_record_long(bytes) };
        let record = [&old[..], &field(&content)].concat();
        let read = Card::read(&record);
        if bytes == 0 {
            assert_eq!(written(&read.expect("READ")), record);
            is_part(tap(&record, &FACTORY).expect("a record"), &FACTORY, 0, FACTORY.len());
        } else if (2..=TAP_MAX_BYTES).contains(&bytes) {
            let card = read.expect("READ");
            assert_eq!(card.tap_record().bytes(), content);
            assert_eq!(written(&card), record);
            is_part(
                tap(&record, &FACTORY).expect("a record"),
                &record,
                old.len() + FIELD_HEAD_BYTES,
                bytes,
            );
        } else {
            assert_eq!(read, Err(Refusal::NotRecord), "{bytes} bytes");
            assert_eq!(tap(&record, &FACTORY), Err(Refusal::NotRecord));
        }
    }
}

/// As [`tap_record`], also of more bytes than a tap record may have.
fn tap_record_long(bytes: usize) -> Vec<u8> {
    let mut record = vec![0x5A; bytes];
    record[..2].copy_from_slice(&((bytes - 2) as u16).to_be_bytes());
    record
}

/// Each byte of field 34 damaged, and the field cut at each place.
#[test]
fn damaged_fields() {
    let old = untapped_record();
    let whole = field(&tap_record(8));
    let no_record = |record: &[u8]| {
        assert_eq!(Card::read(record), Err(Refusal::NotRecord), "{record:02X?}");
        assert_eq!(tap(record, &FACTORY), Err(Refusal::NotRecord));
    };
    for at in 0..whole.len() {
        for value in (0..=0xFF).filter(|&value| value != whole[at]) {
            let mut changed = whole.clone();
            changed[at] = value;
            let record = [&old[..], &changed].concat();
            if at < FIELD_HEAD_BYTES + TAP_COUNT_BYTES {
                no_record(&record);
            } else {
                assert_eq!(tap(&record, &[]), Ok(&changed[FIELD_HEAD_BYTES..]));
            }
        }
        if at > 0 {
            no_record(&[&old[..], &whole[..at]].concat());
        }
    }
    for own in [&field(&[]), &whole] {
        for tail in [&[0x00][..], &[0x34], &field(&[]), &whole] {
            no_record(&[&old[..], own, tail].concat());
        }
        no_record(&[&old[..old.len() - FIELD_HEAD_BYTES], own].concat());
        no_record(&[&written(&Life::fresh().card)[..], own].concat());
    }
}

/// Records without field 34 are read as none, and written with an empty one.
#[test]
fn untapped_records() {
    let old = untapped_record();
    let card = Card::read(&old).expect("a record without field 34");
    assert!(card.tap_record().is_empty());
    assert_eq!(card, Life::initialised().card);
    assert_eq!(written(&card), [&old[..], &[0x34, 0x00, 0x00]].concat());
    is_part(tap(&old, &FACTORY).expect("a record"), &FACTORY, 0, FACTORY.len());
}

/// The factory record is handed back whole, whatever it is; it may be the stored record itself.
#[test]
fn factory_records() {
    let (old, fresh) = (untapped_record(), written(&Life::fresh().card));
    for factory in [&[][..], &[0x00], &[0xFF; 300], &old, &fresh] {
        for record in [&old, &fresh] {
            is_part(tap(record, factory).expect("a record"), factory, 0, factory.len());
        }
        assert_eq!(tap(&[], factory), Err(Refusal::NotRecord));
        assert_eq!(tap(&old[1..], factory), Err(Refusal::NotRecord));
    }
    is_part(tap(&old, &old).expect("a record"), &old, 0, old.len());
}

/// A sound card has none, or what SET NDEF takes, and zeros after it; before INIT none.
#[test]
fn sound_tap_records() {
    let own = place("tap");
    let with_tap = |card: &Card, len: u8, start: &[u8]| {
        let mut bytes = card.to_bytes();
        bytes[own.clone()].fill(0);
        bytes[own.start] = len;
        bytes[own.start + 1..][..start.len()].copy_from_slice(start);
        Card::from_bytes(&bytes).is_sound()
    };
    let initialised = Life::initialised().card;
    for (len, start, is_sound) in [
        (0, &[][..], true),
        (1, &[], false),
        (2, &[], true),
        (2, &[0x00, 0x01], false),
        (3, &[0x00, 0x01], true),
        (3, &[0x01, 0x00], false),
        (3, &[0x00, 0x01, 0x77], true),
        (3, &[0x00, 0x01, 0x77, 0x01], false),
        (0, &[0x00, 0x00, 0x01], false),
        (223, &[0x00, 0xDD], true),
        (224, &[0x00, 0xDE], false),
        (255, &[0x00, 0xFD], false),
    ] {
        assert_eq!(with_tap(&initialised, len, start), is_sound, "{len}, {start:02X?}");
    }
    let mut too_long = initialised.to_bytes();
    too_long[own.start] = 255;
    assert_eq!(Card::from_bytes(&too_long).tap_record().bytes().len(), TAP_MAX_BYTES);
    let fresh = Life::fresh().card;
    assert!(with_tap(&fresh, 0, &[]) && !with_tap(&fresh, 2, &[]) && !with_tap(&fresh, 0, &[0x01]));
}
