//! The values of the API: records as bytes and stored, numbers and names, and what `Debug` keeps to itself.

mod common;

use common::*;
use treadlewisp::*;

/// Where the secrets lie in a card's bytes: PIN, PUK, pairing secret, slot keys, expected cryptogram, the channel's keys.
fn secret_places() -> Vec<std::ops::Range<usize>> {
    let fields = ["pin", "puk", "secret", "expected", "enc_key", "mac_key"].map(place);
    let slots = (0..SLOTS).map(|slot| place("slots").start + SLOT_BYTES * slot);
    let keys = slots.map(|slot| slot + 1..slot + SLOT_BYTES);
    fields.into_iter().chain(keys).collect()
}

#[test]
fn a_stored_record_gives_the_card_back_as_after_reset() {
    for mut life in [Life::fresh(), Life::initialised(), Life::in_channel()] {
        let mut buffer = [FILL; WRITE_ROOM_BYTES + 1];
        let count = life.card.write(&mut buffer).expect("WRITE");
        assert!(buffer[count..].iter().all(|&b| b == FILL));
        if life.card.is_initialised() {
            assert!((RECORD_MIN_BYTES..=RECORD_MAX_BYTES).contains(&count));
        } else {
            assert_eq!(count, RECORD_FRESH_BYTES);
        }
        life.card.reset().expect("RESET");
        assert_eq!(Card::read(&buffer[..count]), Ok(life.card));
    }
}

/// A second RESET gives what the first gave and changes no byte, of a sound card and of one that is not.
#[test]
fn a_second_reset_changes_nothing() {
    let lives = [Life::fresh(), Life::initialised(), Life::in_channel()].map(|life| life.card);
    let mut bytes = lives[2].to_bytes();
    bytes[place("verified")][0] = 2;
    let unsound = Card::from_bytes(&bytes);
    for card in lives.iter().chain([&unsound]) {
        let mut once = card.clone();
        let first = once.reset();
        assert_eq!(first.is_ok(), card.is_sound());
        assert!(first.is_ok() || once == *card);
        let mut twice = once.clone();
        assert_eq!(twice.reset(), first);
        assert_eq!(twice, once);
    }
}

#[test]
fn bytes_and_fields_of_a_card() {
    let life = Life::in_channel();
    let bytes = life.card.to_bytes();
    assert_eq!(Card::from_bytes(&bytes), life.card);
    let field = |name| &bytes[place(name)];
    assert_eq!((field("uid"), field("public_key")), (&UID[..], &POINT[..]));
    assert_eq!((field("pin"), field("puk")), (&PIN[..], &PUK[..]));
    assert_eq!(field("secret"), PAIRING_SECRET);
    assert_eq!(field("slots")[..SLOT_BYTES], [&[1], &pairing_key()[..]].concat());
    assert_eq!((field("stage"), field("enc_key")), (&[2][..], &ENC_KEY[..]));
    assert_eq!((life.card.uid(), life.card.public_key()), (&UID, &POINT));
    let session = Session::from_bytes(&life.terminal.to_bytes());
    assert_eq!(session, life.terminal);
    assert_eq!(session.to_bytes()[2 * KEY_BYTES..], *session.iv());
}

/// Any bytes can be looked at, sound or not.
#[test]
fn fields_of_an_unsound_card() {
    let card = Card::from_bytes(&[0xFF; CARD_BYTES]);
    assert!(!card.is_sound() && !card.is_initialised() && !card.is_verified());
    assert_eq!((card.key_kind(), card.stage()), (None, None));
    assert_eq!(card.current_path().bytes(), [0xFF; PATH_MAX_BYTES]);
    assert_eq!(card.current_path().components().count(), 10);
    assert!(format!("{card:?}").starts_with("Card {"));
}

/// Two cards and two sessions that differ in secrets alone are shown alike.
#[test]
fn debug_shows_no_secret() {
    let life = Life::in_channel();
    let mut bytes = life.card.to_bytes();
    for place in secret_places() {
        for byte in &mut bytes[place] {
            *byte ^= 0x3C;
        }
    }
    let other = Card::from_bytes(&bytes);
    assert_ne!(other, life.card);
    assert_eq!(format!("{other:?}"), format!("{:?}", life.card));
    assert_eq!(format!("{other:#?}"), format!("{:#?}", life.card));
    assert_eq!(format!("{:?}", other.slots()), format!("{:?}", life.card.slots()));
    let session = Session::new(&[1; 32], &[2; 32], &[3; 16]);
    let other = Session::new(&[4; 32], &[5; 32], &[3; 16]);
    assert_eq!(format!("{session:?}"), format!("{other:?}"));
    assert_eq!(
        format!("{session:?}"),
        format!("Session {{ iv: [{}], .. }}", ["03"; IV_BYTES].join(", "))
    );
}

#[test]
fn numbers_of_refusals_and_supplies() {
    let numbers: Vec<u8> = Refusal::ALL.iter().map(|refusal| refusal.number()).collect();
    assert_eq!(numbers, [1, 2, 3, 4, 5, 6, 7, 8, 9, 10, 11]);
    for number in 0..=255 {
        let refusal = Refusal::from_number(number);
        assert_eq!(refusal.map(Refusal::number), (1..=11).contains(&number).then_some(number));
        let kind = SupplyKind::from_number(number);
        assert_eq!(kind.map(SupplyKind::number), (number <= 10).then_some(number));
    }
    for p1 in 0..=255 {
        let of_mnemonic = if (4..=8).contains(&p1) { 4 * usize::from(p1) } else { 0 };
        let bytes = SupplyKind::ALL.map(|kind| kind.bytes(p1));
        assert_eq!(bytes, [0, 33, 113, 32, 32, 32, 66, 1, 129, 98, of_mnemonic], "P1 {p1:02X}");
    }
    assert_eq!(SUPPLY_MAX_BYTES, 129);
    for kind in SupplyKind::ALL {
        assert_eq!(supply(kind).len(), kind.bytes(command::P1_MNEMONIC_12_WORDS));
        assert_eq!(kind.command_name().is_none(), kind == SupplyKind::None);
    }
    let error: Box<dyn std::error::Error> = Refusal::Room.into();
    assert_eq!(error.to_string(), "refusal 2: the buffer is smaller than the operation asks for");
    assert_eq!(SupplyKind::Sign.to_string(), "supply for SIGN, 129 bytes");
    assert_eq!(SupplyKind::Export.to_string(), "supply for EXPORT, 98 bytes");
    assert_eq!(SupplyKind::Mnemonic.to_string(), "supply for GENERATE MNEMONIC, 4 times P1 bytes");
    assert_eq!(
        Refusal::WrongCount.to_string(),
        "refusal 9: not 12, 15, 18, 21 or 24 numbers of 2 bytes"
    );
    assert_eq!(Refusal::NumberTooLarge.to_string(), "refusal 10: a number is over 2047");
    assert_eq!(Refusal::WrongChecksum.to_string(), "refusal 11: the checksum differs");
}

#[test]
fn status_words() {
    let tries: Vec<Option<u8>> = (0x63BF..=0x63D0).map(|word| StatusWord(word).tries_left()).collect();
    assert_eq!(tries[0], None);
    assert_eq!(tries[1..17], (0..16).map(Some).collect::<Vec<_>>());
    assert_eq!(tries[17], None);
    assert!(StatusWord::SUCCESS.is_success() && !StatusWord::WRONG_DATA.is_success());
    assert_eq!(StatusWord::TRIES_LEFT_1.to_string(), "63C1 (1 try left)");
    assert_eq!(StatusWord::UNKNOWN_INSTRUCTION.to_string(), "6D00 (unknown instruction)");
    assert_eq!(StatusWord(0x1234).to_string(), "1234 (no status word of this card)");
    assert_eq!(StatusWord::of(&[]), None);
}
