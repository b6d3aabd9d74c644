//! Each refusal, 1 to 11, by each operation that gives it: card, session and buffer are afterwards as they were.

mod common;

use common::*;
use treadlewisp::*;

/// A buffer of this length, and whether it is afterwards as before.
fn with_buffer<T>(bytes: usize, call: impl FnOnce(&mut [u8]) -> T) -> T {
    let mut buffer = vec![FILL; bytes];
    let result = call(&mut buffer);
    assert!(buffer.iter().all(|&b| b == FILL), "the buffer was changed");
    result
}

/// The numbers of BIP 39's first phrase: 11 times 0, and 3.
const ABANDON_ABOUT: [u8; WORDS_MIN_BYTES] = {
    let mut words = [0; WORDS_MIN_BYTES];
    words[WORDS_MIN_BYTES - 1] = 3;
    words
};

#[test]
fn unsound_1() {
    let sound = Life::in_channel().card.to_bytes();
    let mut bytes = sound;
    bytes[place("pin_tries").start] = PIN_TRIES + 1;
    let mut card = Card::from_bytes(&bytes);
    assert!(!card.is_sound());
    assert_eq!(card.reset(), Err(Refusal::Unsound));
    let select = select_command();
    for room in [0, ANSWER_ROOM_BYTES] {
        assert_eq!(with_buffer(room, |b| card.ask(&select, b)), Err(Refusal::Unsound));
        assert_eq!(with_buffer(room, |b| card.answer(&select, &[], b)), Err(Refusal::Unsound));
    }
    assert_eq!(with_buffer(WRITE_ROOM_BYTES, |b| card.write(b)), Err(Refusal::Unsound));
    assert_eq!(card.to_bytes(), bytes);
    assert!(Card::from_bytes(&sound).is_sound());
}

#[test]
fn room_2() {
    let mut life = Life::in_channel();
    let (card, terminal) = (life.card.clone(), life.terminal.clone());
    let select = select_command();
    let header = card_header(command::VERIFY, 0x00);
    for short in [1, 100] {
        let ask = with_buffer(ASK_ROOM_BYTES - short, |b| life.card.ask(&select, b));
        assert_eq!(ask, Err(Refusal::Room));
        let answer = with_buffer(ANSWER_ROOM_BYTES - short, |b| life.card.answer(&select, &[], b));
        assert_eq!(answer, Err(Refusal::Room));
        let write = with_buffer(WRITE_ROOM_BYTES - short, |b| life.card.write(b));
        assert_eq!(write, Err(Refusal::Room));
        let too_long = [0; DATA_MAX_BYTES + 1];
        let seal = with_buffer(SEAL_ROOM_BYTES - short, |b| life.terminal.seal(&header, &too_long, b));
        assert_eq!(seal, Err(Refusal::Room));
        let unseal = with_buffer(UNSEAL_ROOM_BYTES - short, |b| life.terminal.unseal(&[], b));
        assert_eq!(unseal, Err(Refusal::Room));
    }
    for room in 0..ENTROPY_ROOM_BYTES {
        assert_eq!(with_buffer(room, |b| entropy_into(&ABANDON_ABOUT, b)), Err(Refusal::Room));
    }
    assert_eq!((life.card, life.terminal), (card, terminal));
}

#[test]
fn bad_supply_3() {
    let mut life = Life::fresh();
    let before = life.card.clone();
    let init = init_command();
    let right = supply(SupplyKind::Init);
    assert_eq!(right.len(), SupplyKind::Init.bytes(0x00));
    let mut flag_2 = right.clone();
    flag_2[0] = 2;
    for wrong in [&[][..], &[0], &right[1..], &[&right[..], &[0]].concat(), &flag_2] {
        let answer = with_buffer(ANSWER_ROOM_BYTES, |b| life.card.answer(&init, wrong, b));
        assert_eq!(answer, Err(Refusal::BadSupply));
        assert_eq!(life.card, before);
    }
    let mut buffer = [FILL; ANSWER_ROOM_BYTES];
    assert_eq!(life.card.answer(&init, &right, &mut buffer).map(|answered| answered.count), Ok(2));
    assert_ne!(life.card, before);
}

/// A refused supply takes back what the command did before: the channel's IV does not move.
#[test]
fn bad_supply_3_in_a_channel() {
    let mut life = Life::in_channel();
    assert_eq!(life.sealed_status(command::VERIFY, 0x00, PIN), StatusWord::SUCCESS);
    let load = life.seal(command::LOAD, command::P1_LOAD_SEED, &[0x5E; 64]);
    let before = life.card.clone();
    let answer = with_buffer(ANSWER_ROOM_BYTES, |b| life.card.answer(&load, &[0x01], b));
    assert_eq!(answer, Err(Refusal::BadSupply));
    assert_eq!(life.card, before);
    let response = life.plain(&load);
    let mut opened = [0; UNSEAL_ROOM_BYTES];
    assert_eq!(life.terminal.unseal(&response, &mut opened), Ok(KEY_BYTES + STATUS_BYTES));
}

/// tests/faults.rs has the place of each fault.
#[test]
fn malformed_4_and_too_deep_5() {
    let refusal = |input: &[u8]| walk(input).map_err(|fault| fault.refusal);
    assert_eq!(walk(&[]), Ok(0));
    assert_eq!(refusal(&[0x80]), Err(Refusal::Malformed));
    assert_eq!(refusal(&[0x80, 0x81, 0x05]), Err(Refusal::Malformed));
    assert_eq!(walk(&nested(4)), Ok(1));
    assert_eq!(refusal(&nested(5)), Err(Refusal::TooDeep));
    assert_eq!(refusal(&[&nested(5)[..], &[0x80]].concat()), Err(Refusal::TooDeep));
    assert_eq!(refusal(&[&[0x80, 0x80][..], &nested(5)].concat()), Err(Refusal::Malformed));
}

#[test]
fn too_long_6() {
    let mut life = Life::fresh();
    let before = life.terminal.clone();
    let header = card_header(command::LOAD, 0x03);
    let data = [0x5E; DATA_MAX_BYTES + 1];
    let seal = with_buffer(SEAL_ROOM_BYTES, |b| life.terminal.seal(&header, &data, b));
    assert_eq!(seal, Err(Refusal::TooLong));
    assert_eq!(life.terminal, before);
    assert_eq!(life.seal(command::LOAD, 0x03, &data[..DATA_MAX_BYTES]).len(), 5 + MAC_BYTES + 224);
    assert_ne!(life.terminal, before);
}

#[test]
fn not_genuine_7() {
    let mut life = Life::in_channel();
    let command = life.seal(command::GET_STATUS, 0x00, &[]);
    let response = life.plain(&command);
    let before = life.terminal.clone();
    for at in 0..response.len() {
        let mut damaged = response.clone();
        damaged[at] ^= 0x40;
        let unseal = with_buffer(UNSEAL_ROOM_BYTES, |b| life.terminal.unseal(&damaged, b));
        assert_eq!(unseal, Err(Refusal::NotGenuine), "byte {at}");
    }
    let unseal = with_buffer(UNSEAL_ROOM_BYTES, |b| life.terminal.unseal(&[], b));
    assert_eq!(unseal, Err(Refusal::NotGenuine));
    assert_eq!(life.terminal, before);
    let mut opened = [0; UNSEAL_ROOM_BYTES];
    assert_eq!(life.terminal.unseal(&response, &mut opened), Ok(13));
}

/// A card of version 0.1.0 leaves the MAC out of Lr: its responses are refused at every length, and the session stays.
#[test]
fn not_genuine_7_where_lr_leaves_out_the_mac() {
    let mut life = Life::fresh();
    let before = life.terminal.clone();
    let mut opened = [0; UNSEAL_ROOM_BYTES];
    for plaintext_bytes in STATUS_BYTES..=UNSEAL_ROOM_BYTES {
        let plaintext = vec![0x77; plaintext_bytes];
        let old = sealed_response(&plaintext, 0);
        let unseal = with_buffer(UNSEAL_ROOM_BYTES, |b| life.terminal.unseal(&old, b));
        assert_eq!(unseal, Err(Refusal::NotGenuine), "{plaintext_bytes} bytes inside");
        let unseal = with_buffer(UNSEAL_ROOM_BYTES - 1, |b| life.terminal.unseal(&old, b));
        assert_eq!(unseal, Err(Refusal::Room), "{plaintext_bytes} bytes inside");
        assert_eq!(life.terminal, before);
        let new = sealed_response(&plaintext, MAC_BYTES);
        assert_eq!(before.clone().unseal(&new, &mut opened), Ok(plaintext_bytes));
    }
}

#[test]
fn not_record_8() {
    let life = Life::initialised();
    let mut buffer = [FILL; WRITE_ROOM_BYTES];
    let count = life.card.write(&mut buffer).expect("WRITE");
    let record = &buffer[..count];
    assert_eq!(Card::read(&[]), Err(Refusal::NotRecord));
    assert_eq!(Card::read(&record[1..]), Err(Refusal::NotRecord));
    assert_eq!(Card::read(&record[..count - 1]), Err(Refusal::NotRecord));
    assert_eq!(Card::read(&[record, &[0]].concat()), Err(Refusal::NotRecord));
    assert_eq!(Card::read(record), Ok(life.card));
}

/// ENTROPY with each length: 9 wherever it is not that of 12, 15, 18, 21 or 24 numbers, odd lengths too. tests/phrases.rs has the others' order.
#[test]
fn wrong_count_9() {
    for words_bytes in 0..=3 * WORDS_MAX_BYTES {
        let words = vec![0xFF; words_bytes];
        let expected = match words_bytes {
            24 | 30 | 36 | 42 | 48 => Refusal::NumberTooLarge,
            _ => Refusal::WrongCount,
        };
        assert_eq!(
            with_buffer(ENTROPY_ROOM_BYTES, |b| entropy_into(&words, b)),
            Err(expected),
            "{words_bytes} bytes"
        );
        assert_eq!(entropy(&words).err(), Some(expected), "{words_bytes} bytes");
    }
}

/// A number over 2047 at each place, the least and the greatest.
#[test]
fn number_too_large_10() {
    for at in (0..WORDS_MIN_BYTES).step_by(WORD_NUMBER_BYTES) {
        for number in [WORD_NUMBER_MAX + 1, 0x8000, u16::MAX] {
            let mut words = ABANDON_ABOUT;
            words[at..at + WORD_NUMBER_BYTES].copy_from_slice(&number.to_be_bytes());
            let refused = with_buffer(ENTROPY_ROOM_BYTES, |b| entropy_into(&words, b));
            assert_eq!(refused, Err(Refusal::NumberTooLarge), "{number} at byte {at}");
            assert_eq!(entropy(&words).err(), Some(Refusal::NumberTooLarge));
        }
    }
}

/// Of the 16 checksums that 12 words can end with, one is right.
#[test]
fn wrong_checksum_11() {
    for last in 0..16 {
        let mut words = ABANDON_ABOUT;
        words[WORDS_MIN_BYTES - 1] = last;
        if words == ABANDON_ABOUT {
            let mut buffer = [FILL; ENTROPY_ROOM_BYTES + 1];
            assert_eq!(entropy_into(&words, &mut buffer), Ok(ENTROPY_MIN_BYTES));
            assert_eq!(
                buffer[..],
                [&[0; ENTROPY_MIN_BYTES][..], &[FILL; ENTROPY_ROOM_BYTES + 1 - ENTROPY_MIN_BYTES]].concat()
            );
        } else {
            let refused = with_buffer(ENTROPY_ROOM_BYTES, |b| entropy_into(&words, b));
            assert_eq!(refused, Err(Refusal::WrongChecksum), "{last}");
        }
    }
}
