//! A card's whole life over the safe functions: the answers are those that the rules give (docs/RULES.md).

mod common;

use common::*;
use treadlewisp::*;

const PATH: [u8; 8] = [0x80, 0x00, 0x00, 0x2C, 0x00, 0x00, 0x00, 0x07];

#[test]
fn from_fresh_to_a_channel() {
    let mut life = Life::fresh();
    let select = life.plain(&select_command());
    assert_eq!(select, [&[0x80, 65], &POINT[..], &[0x90, 0x00]].concat());
    let status = plain_command(card_header(command::GET_STATUS, 0x00), &[]);
    assert_eq!(life.plain(&status), [0x6D, 0x00]);

    let mut buffer = [0; ASK_ROOM_BYTES];
    let asked = life.card.ask(&init_command(), &mut buffer).expect("ASK");
    assert_eq!((asked.kind, asked.count), (SupplyKind::Init, 146));
    assert_eq!(buffer[..146], init_command()[5..]);
    assert_eq!(life.plain(&init_command()), [0x90, 0x00]);
    assert!(life.card.is_initialised());
    assert_eq!((life.card.pin_tries(), life.card.puk_tries()), (PIN_TRIES, PUK_TRIES));
    assert_eq!(life.card.pairing_secret(), &PAIRING_SECRET);
    assert_eq!(life.plain(&init_command()), [0x6D, 0x00]);
    assert_eq!(life.plain(&status), [0x69, 0x85]);

    for slot in 0..SLOTS {
        assert_eq!(usize::from(life.pair()), slot);
        assert!(life.card.slots()[slot].is_filled());
        assert_eq!(life.card.slots()[slot].pairing_key(), &pairing_key());
    }
    let one_more = plain_command(card_header(command::PAIR, command::P1_PAIR_FIRST), &[0; KEY_BYTES]);
    assert_eq!(life.plain(&one_more), [0x6A, 0x84]);
    life.open();
    life.mutual();
    let tries = life.sealed(command::GET_STATUS, command::P1_STATUS_TRIES, &[]);
    assert_eq!(tries, [0xA3, 9, 2, 1, 3, 2, 1, 5, 1, 1, 0, 0x90, 0x00]);
}

#[test]
fn pin_and_puk() {
    let mut life = Life::in_channel();
    let verify = |life: &mut Life, pin: &[u8]| life.sealed_status(command::VERIFY, 0x00, pin);
    assert_eq!(verify(&mut life, PIN), StatusWord::SUCCESS);
    assert!(life.card.is_verified());
    assert_eq!(verify(&mut life, WRONG_PIN), StatusWord::TRIES_LEFT_2);
    assert!(!life.card.is_verified());
    assert_eq!(verify(&mut life, &PIN[..5]).tries_left(), Some(1));
    assert_eq!(verify(&mut life, b""), StatusWord::TRIES_LEFT_0);
    assert_eq!(verify(&mut life, PIN), StatusWord::TRIES_LEFT_0);
    assert_eq!(life.card.pin_tries(), 0);

    let wrong_puk = [&[0x30; PUK_BYTES][..], b"555555"].concat();
    assert_eq!(life.sealed_status(command::UNBLOCK, 0x00, &wrong_puk), StatusWord::TRIES_LEFT_4);
    let right_puk = [&PUK[..], b"555555"].concat();
    assert_eq!(life.sealed_status(command::UNBLOCK, 0x00, &right_puk), StatusWord::SUCCESS);
    assert_eq!((life.card.pin_tries(), life.card.puk_tries()), (PIN_TRIES, PUK_TRIES));
    assert!(life.card.is_verified());
    assert_eq!(
        life.sealed_status(command::UNBLOCK, 0x00, &right_puk),
        StatusWord::CONDITIONS_NOT_MET
    );

    assert_eq!(
        life.sealed_status(command::CHANGE, command::P1_CHANGE_PIN, PIN),
        StatusWord::SUCCESS
    );
    assert_eq!(verify(&mut life, PIN), StatusWord::SUCCESS);
    assert_eq!(verify(&mut life, b"555555"), StatusWord::TRIES_LEFT_2);
}

#[test]
fn keys_and_paths() {
    let mut life = Life::in_channel();
    let seed = [0x5E; 64];
    let load = |life: &mut Life| life.sealed(command::LOAD, command::P1_LOAD_SEED, &seed);
    assert_eq!(load(&mut life), [0x69, 0x85]);
    assert_eq!(life.sealed_status(command::VERIFY, 0x00, PIN), StatusWord::SUCCESS);
    assert_eq!(load(&mut life), [&key_uid()[..], &[0x90, 0x00]].concat());
    assert_eq!(life.card.key_kind(), Some(KeyKind::Extended));
    assert_eq!(life.card.key_uid(), &key_uid());

    assert_eq!(life.sealed_status(command::DERIVE, 0x00, &PATH), StatusWord::SUCCESS);
    assert_eq!(life.card.current_path().components().collect::<Vec<_>>(), [0x8000_002C, 7]);
    let path = life.sealed(command::GET_STATUS, command::P1_STATUS_PATH, &[]);
    assert_eq!(path, [&PATH[..], &[0x90, 0x00]].concat());
    assert_eq!(life.sealed_status(command::SET_PINLESS_PATH, 0x00, &PATH), StatusWord::SUCCESS);
    assert_eq!(life.card.pinless_path(), life.card.current_path());
    assert_eq!(life.sealed_status(command::DERIVE, 0x00, &PATH[..3]), StatusWord::WRONG_DATA);

    let signature = life.sealed(command::SIGN, 0x00, &[0x5F; 32]);
    let numbers = [0x30, 7, 2, 2, 0x00, 0x80, 2, 1, 1];
    assert_eq!(signature, [&[0xA0, 76, 0x80, 65], &POINT[..], &numbers, &[0x90, 0x00]].concat());
    assert_eq!(life.sealed_status(command::SIGN, 0x00, &[0x5F; 31]), StatusWord::WRONG_DATA);
    assert_eq!(life.sealed_status(command::REMOVE, 0x00, &[]), StatusWord::SUCCESS);
    assert_eq!(life.card.key_kind(), Some(KeyKind::None));
    assert!(life.card.current_path().is_empty() && life.card.pinless_path().is_empty());
    assert_eq!(life.sealed_status(command::SIGN, 0x00, &[0x5F; 32]), StatusWord::CONDITIONS_NOT_MET);
    assert_eq!(life.sealed_status(command::UNPAIR, SLOTS as u8, &[]), StatusWord::WRONG_PARAMETERS);
    assert_eq!(life.sealed_status(command::UNPAIR, 0, &[]), StatusWord::SUCCESS);
    assert!(!life.card.slots()[0].is_filled());
}

#[test]
fn channel_and_verification_are_lost_by_a_forged_command_and_by_reset() {
    let mut life = Life::in_channel();
    assert_eq!(life.sealed_status(command::VERIFY, 0x00, PIN), StatusWord::SUCCESS);
    let mut forged = life.seal(command::GET_STATUS, 0x00, &[]);
    forged[5] ^= 1;
    assert_eq!(life.plain(&forged), [0x69, 0x82]);
    assert_eq!((life.card.stage(), life.card.is_verified()), (Some(Stage::Closed), false));
    life.open();
    life.mutual();
    assert_eq!(life.sealed_status(command::VERIFY, 0x00, PIN), StatusWord::SUCCESS);
    life.card.reset().expect("RESET");
    assert_eq!((life.card.stage(), life.card.is_verified()), (Some(Stage::Closed), false));
}

/// SEAL's command, held against the plain AES.
#[test]
fn a_sealed_command_is_enciphered_and_authenticated_by_the_standards() {
    let aes = common::plain::Aes::new();
    let data = [0x77; 40];
    let mut life = Life::fresh();
    let sealed = life.seal(command::LOAD, 0x03, &data);
    let mut ciphertext = [&data[..], &[0x80], &[0; 7]].concat();
    aes.cbc_encrypt(&ENC_KEY, &SEED_IV, &mut ciphertext);
    let mut head = [0; 16];
    head[..5].copy_from_slice(&[0x80, command::LOAD, 0x03, 0x00, 64]);
    let mac = aes.cbc_mac(&MAC_KEY, &[&head[..], &ciphertext].concat());
    assert_eq!(sealed, [&head[..5], &mac, &ciphertext].concat());
    assert_eq!(life.terminal.iv(), &mac);
}

/// ANSWER's response, held against the plain AES: Lr counts MAC and ciphertext, 16 and 16 bytes.
#[test]
fn a_sealed_response_is_authenticated_by_the_standards() {
    let aes = common::plain::Aes::new();
    let mut life = Life::in_channel();
    let command = life.seal(command::GET_STATUS, command::P1_STATUS_TRIES, &[]);
    let response = life.plain(&command);
    let (field, end) = response.split_at(32);
    let mut head = [0; 16];
    head[0] = 32;
    let mac = aes.cbc_mac(&MAC_KEY, &[&head[..], &field[MAC_BYTES..]].concat());
    assert_eq!((&field[..MAC_BYTES], end), (&mac[..], &[0x90, 0x00][..]));
}

/// UNSEAL opens what the plain AES sealed, at each length that a response can have.
#[test]
fn a_response_that_was_sealed_by_the_standards_opens() {
    for plaintext_bytes in STATUS_BYTES..=UNSEAL_ROOM_BYTES {
        let plaintext = vec![0x77; plaintext_bytes];
        let response = sealed_response(&plaintext, MAC_BYTES);
        let mut terminal = Life::fresh().terminal;
        let mut opened = [FILL; UNSEAL_ROOM_BYTES];
        assert_eq!(terminal.unseal(&response, &mut opened), Ok(plaintext_bytes));
        assert_eq!(opened[..plaintext_bytes], plaintext);
        assert_eq!(terminal.iv()[..], response[..MAC_BYTES]);
    }
}
