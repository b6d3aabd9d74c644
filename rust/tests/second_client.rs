//! A second client does not inherit the PIN: verification ends where the channel ends (docs/RULES.md).

mod common;

use common::*;
use treadlewisp::*;

/// A channel in which the PIN was verified.
fn verified() -> Life {
    let mut life = Life::in_channel();
    assert_eq!(life.sealed_status(command::VERIFY, 0x00, PIN), StatusWord::SUCCESS);
    assert!(life.card.is_verified());
    life
}

fn open_command(slot: u8, point: &[u8]) -> Vec<u8> {
    plain_command(card_header(command::OPEN, slot), point)
}

/// UNPAIR, of a free slot, needs a verified PIN and changes nothing.
fn unpair(life: &mut Life) -> StatusWord {
    life.sealed_status(command::UNPAIR, SLOTS as u8 - 1, &[])
}

/// A client opens a channel on the card as it was left, and finds the PIN not verified until it gives it.
fn second_client(life: &mut Life) {
    life.open();
    assert!(!life.card.is_verified());
    life.mutual();
    assert!(!life.card.is_verified());
    assert_eq!(unpair(life), StatusWord::CONDITIONS_NOT_MET);
    assert_eq!(life.sealed_status(command::VERIFY, 0x00, PIN), StatusWord::SUCCESS);
    assert_eq!(unpair(life), StatusWord::SUCCESS);
}

#[test]
fn a_new_channel_starts_without_the_pin() {
    second_client(&mut verified());
}

#[test]
fn every_way_to_lose_the_channel_ends_verification() {
    let bare = |instruction| plain_command(card_header(instruction, 0x00), &[]);
    let mut ways = vec![
        (select_command(), None),
        (open_command(SLOTS as u8, &POINT), Some(StatusWord::WRONG_PARAMETERS)),
        (open_command(1, &POINT), Some(StatusWord::WRONG_PARAMETERS)),
        (open_command(0, &POINT[1..]), Some(StatusWord::WRONG_DATA)),
        (open_command(0, &[]), Some(StatusWord::WRONG_DATA)),
    ];
    let sealed_kind = [
        command::MUTUAL,
        command::UNPAIR,
        command::GET_STATUS,
        command::VERIFY,
        command::CHANGE,
        command::UNBLOCK,
        command::LOAD,
        command::DERIVE,
        command::REMOVE,
        command::SET_PINLESS_PATH,
        command::SIGN,
        command::EXPORT,
    ];
    for instruction in sealed_kind {
        let mut forged = verified().seal(instruction, 0x00, &[0x0E; KEY_BYTES]);
        forged[5] ^= 1;
        ways.push((forged, Some(StatusWord::SECURITY_NOT_MET)));
        ways.push((bare(instruction), Some(StatusWord::SECURITY_NOT_MET)));
    }
    for (way, word) in ways {
        let mut life = verified();
        let response = life.plain(&way);
        assert_eq!(
            StatusWord::of(&response[response.len() - STATUS_BYTES..]),
            word.or(Some(StatusWord::SUCCESS)),
            "{way:02X?}"
        );
        assert_eq!(
            (life.card.stage(), life.card.is_verified()),
            (Some(Stage::Closed), false),
            "{way:02X?}"
        );
        second_client(&mut life);
    }
}

#[test]
fn open_with_flag_00_ends_verification_and_a_refused_one_does_not() {
    let mut life = verified();
    let open = open_command(0, &POINT);
    let mut supplied = supply(SupplyKind::Open);
    let mut buffer = [FILL; ANSWER_ROOM_BYTES];
    let before = life.card.clone();
    for wrong in [&supplied[1..], &[0]] {
        assert_eq!(life.card.answer(&open, wrong, &mut buffer), Err(Refusal::BadSupply));
        assert_eq!(life.card, before);
    }
    assert_eq!(
        life.card.answer(&open, &supplied, &mut buffer[..ANSWER_ROOM_BYTES - 1]),
        Err(Refusal::Room)
    );
    assert_eq!(life.card, before);
    assert_eq!(unpair(&mut life), StatusWord::SUCCESS);
    supplied[0] = 0;
    let answered = life.card.answer(&open, &supplied, &mut buffer).expect("ANSWER");
    assert_eq!((answered.count, answered.fault_offset), (STATUS_BYTES, None));
    assert_eq!(buffer[..STATUS_BYTES], [0x6A, 0x80]);
    assert_eq!((life.card.stage(), life.card.is_verified()), (Some(Stage::Closed), false));
}

#[test]
fn a_reset_and_a_stored_record_end_verification() {
    let mut life = verified();
    let mut record = [FILL; WRITE_ROOM_BYTES];
    let count = life.card.write(&mut record).expect("WRITE");
    life.card.reset().expect("RESET");
    assert_eq!((life.card.stage(), life.card.is_verified()), (Some(Stage::Closed), false));
    assert_eq!(Card::read(&record[..count]), Ok(life.card.clone()));
    second_client(&mut life);
}

/// Plain answers that keep channel and verification, and sealed ones.
#[test]
fn what_keeps_the_channel_keeps_verification() {
    let pair = |p1| plain_command(card_header(command::PAIR, p1), &client_cryptogram());
    let mut other_name = select_command();
    other_name[5] ^= 1;
    let plain = [
        (vec![], StatusWord::WRONG_LENGTH),
        (open_command(0, &POINT)[..40].to_vec(), StatusWord::WRONG_LENGTH),
        (vec![0x81, command::OPEN, 0, 0], StatusWord::UNKNOWN_CLASS),
        (vec![0x80, 0xFF, 0, 0], StatusWord::UNKNOWN_INSTRUCTION),
        (init_command(), StatusWord::UNKNOWN_INSTRUCTION),
        (other_name, StatusWord::NOT_FOUND),
        (pair(command::P1_PAIR_FIRST), StatusWord::CONDITIONS_NOT_MET),
        (pair(command::P1_PAIR_FINAL), StatusWord::WRONG_PARAMETERS),
    ];
    let mut life = verified();
    for (command, word) in plain {
        let before = life.card.clone();
        assert_eq!(StatusWord::of(&life.plain(&command)), Some(word), "{command:02X?}");
        assert_eq!(life.card, before, "{command:02X?}");
    }
    let right_puk = [&PUK[..], PIN].concat();
    let sealed = [
        (command::MUTUAL, 0x00, &[0x0E; KEY_BYTES][..], StatusWord::CONDITIONS_NOT_MET),
        (command::MUTUAL, 0x01, &[], StatusWord::WRONG_PARAMETERS),
        (command::UNBLOCK, 0x00, &right_puk, StatusWord::CONDITIONS_NOT_MET),
        (command::CHANGE, command::P1_CHANGE_PIN, PIN, StatusWord::SUCCESS),
        (command::CHANGE, command::P1_CHANGE_PUK, PIN, StatusWord::WRONG_DATA),
        (command::SIGN, 0x00, &[], StatusWord::CONDITIONS_NOT_MET),
        (command::GET_STATUS, 0x02, &[], StatusWord::WRONG_PARAMETERS),
        (command::UNPAIR, 0, &[], StatusWord::SUCCESS),
        (command::REMOVE, 0x00, &[], StatusWord::SUCCESS),
        (command::VERIFY, 0x00, PIN, StatusWord::SUCCESS),
    ];
    for (instruction, p1, data, word) in sealed {
        assert_eq!(life.sealed_status(instruction, p1, data), word, "{instruction:02X}");
        assert_eq!((life.card.stage(), life.card.is_verified()), (Some(Stage::Mutual), true));
    }
    assert_eq!(life.sealed_status(command::VERIFY, 0x00, WRONG_PIN), StatusWord::TRIES_LEFT_2);
    assert_eq!((life.card.stage(), life.card.is_verified()), (Some(Stage::Mutual), false));
}

/// The PIN is verified only in stage 2 and only with 3 tries.
#[test]
fn a_verified_pin_elsewhere_is_not_sound() {
    let sound = |stage: Stage, tries: u8, verified: u8| {
        let mut bytes = card_in(stage).to_bytes();
        bytes[place("pin_tries")][0] = tries;
        bytes[place("verified")][0] = verified;
        let mut card = Card::from_bytes(&bytes);
        let is_sound = card.is_sound();
        assert_eq!(card.reset().is_ok(), is_sound);
        is_sound
    };
    for stage in [Stage::Closed, Stage::Opened, Stage::Mutual] {
        for tries in 0..=PIN_TRIES {
            assert!(sound(stage, tries, 0));
            assert_eq!(sound(stage, tries, 1), stage == Stage::Mutual && tries == PIN_TRIES);
        }
    }
}

/// A sound card in this stage.
fn card_in(stage: Stage) -> Card {
    let mut life = verified();
    if stage == Stage::Closed {
        life.card.reset().expect("RESET");
    }
    if stage == Stage::Opened {
        life.open();
    }
    life.card
}
