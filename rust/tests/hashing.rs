//! What the card hashes by itself: PAIR's cryptograms and pairing key, and LOAD's key UID (docs/RULES.md). The client here hashes by the plain
//! SHA-256 of outside/; tests/sha256.rs has one that hashes by this crate's. Lengths are in bytes.

mod common;

use common::*;
use treadlewisp::command::*;
use treadlewisp::*;

/// 32 or 65 bytes that rise by one.
fn rising<const N: usize>(first: u8) -> [u8; N] {
    std::array::from_fn(|at| first.wrapping_add(at as u8))
}

/// The bytes of hexadecimal digits.
fn bytes(digits: &str) -> Vec<u8> {
    let pair = |at: usize| u8::from_str_radix(&digits[at..at + 2], 16).expect("hexadecimal digits");
    (0..digits.len()).step_by(2).map(pair).collect()
}

fn pair_command(p1: u8, data: &[u8]) -> Vec<u8> {
    plain_command(card_header(PAIR, p1), data)
}

/// ANSWER with this supply; gives the response.
fn answered(card: &mut Card, command: &[u8], supply: &[u8]) -> Vec<u8> {
    let mut response = vec![FILL; ANSWER_ROOM_BYTES];
    let answered = card.answer(command, supply, &mut response).expect("ANSWER");
    assert_eq!(answered.fault_offset, None);
    response.truncate(answered.count);
    response
}

/// A card after INIT with this pairing secret.
fn card_with_secret(pairing_secret: &[u8; KEY_BYTES]) -> Card {
    let (aes_key, mut card) = ([0x81; KEY_BYTES], Card::fresh(&UID, &POINT));
    let init = PlainCommand::init(&InitParts {
        aes_key: &aes_key,
        point: &POINT,
        iv: &[0x82; IV_BYTES],
        pin: PIN,
        puk: PUK,
        pairing_secret,
    });
    assert_eq!(answered(&mut card, init.bytes(), Supply::init(&aes_key).bytes()), [0x90, 0x00]);
    card
}

/// Both steps of PAIR with these challenges and this salt. The client hashes for itself, and compares.
fn pair(card: &mut Card, secret: &[u8; KEY_BYTES], client: &[u8; KEY_BYTES], challenge: &[u8; KEY_BYTES], salt: &[u8; KEY_BYTES]) -> u8 {
    let first = answered(card, &pair_command(P1_PAIR_FIRST, client), Supply::pair_first(challenge).bytes());
    assert_eq!(first, [&hashed(&[secret, client])[..], challenge, &[0x90, 0x00]].concat());
    let own = hashed(&[secret, challenge]);
    assert_eq!(card.to_bytes()[place("expected")], own);
    let last = answered(card, &pair_command(P1_PAIR_FINAL, &own), Supply::pair_final(salt).bytes());
    assert_eq!(last[1..], [&salt[..], &[0x90, 0x00]].concat());
    assert_eq!(card.slots()[usize::from(last[0])].pairing_key(), &hashed(&[secret, salt]));
    last[0]
}

/// The numbers of docs/INTEGRATION.md, 5.3, which other programs worked out.
#[test]
fn the_numbers_of_the_guide() {
    let [secret, client, challenge, salt] = [0x70, 0x90, 0xB0, 0xD0].map(rising::<KEY_BYTES>);
    let mut card = card_with_secret(&secret);
    let first = answered(
        &mut card,
        &pair_command(P1_PAIR_FIRST, &client),
        Supply::pair_first(&challenge).bytes(),
    );
    let card_cryptogram = bytes("BB7A5A06C4EF1CA26DBC20766D447E396D1FC7A3FB9094A9F06764F7B8ABCC92");
    assert_eq!(first, [&card_cryptogram[..], &challenge, &[0x90, 0x00]].concat());
    let own = bytes("290FA612B03A9EC12217E71E22A609B638D330A7D92D0C99A71B9F8DFBEDE186");
    let last = answered(&mut card, &pair_command(P1_PAIR_FINAL, &own), Supply::pair_final(&salt).bytes());
    assert_eq!(last, [&[0x00], &salt[..], &[0x90, 0x00]].concat());
    let pairing_key = bytes("9700319F7794D6EF2900DCB834E238A6A62B0E0CCB7434F72735355CBDA35E16");
    assert_eq!(card.slots()[0].pairing_key()[..], pairing_key);

    let public_key = bytes(concat!(
        "04C8B34212481CA48696D823712B5C8EA3D8F57E074FBBCFE1D4D43AA0554284A9",
        "76FAC9035B7ABA150B2547E9815B083865A4EBD0AE4FA199CC4AA54296ACF0B0",
    ));
    let loaded = load(&mut verified(), P1_LOAD_SEED, &[0x5E; SEED_BYTES], &public_key);
    let key_uid = bytes("3C4DA72D512EDE74E7990A32C9605544E94477700431ECD1C0AACCD14BD636EE");
    assert_eq!(loaded, [&key_uid[..], &[0x90, 0x00]].concat());
}

/// Other secrets, challenges and salts in every slot.
#[test]
fn every_slot_has_the_key_of_its_salt() {
    for seed in 0..8_u8 {
        let part = |number: u8| hashed(&[&[seed, number]]);
        let secret = part(0);
        let mut card = card_with_secret(&secret);
        for slot in 0..SLOTS as u8 {
            let index = pair(&mut card, &secret, &part(3 * slot + 1), &part(3 * slot + 2), &part(3 * slot + 3));
            assert_eq!(index, slot);
        }
        for (slot, filled) in card.slots().iter().enumerate() {
            assert_eq!(filled.pairing_key(), &hashed(&[&secret, &part(3 * slot as u8 + 3)]));
        }
    }
}

/// Each bit of the cryptogram counts; and it is that of the secret and the card's challenge, in this order, and no other.
#[test]
fn cryptograms_that_are_wrong() {
    let mut waiting = card_with_secret(&PAIRING_SECRET);
    let first = pair_command(P1_PAIR_FIRST, &CLIENT_CHALLENGE);
    answered(&mut waiting, &first, Supply::pair_first(&CARD_CHALLENGE).bytes());
    let right = client_cryptogram();
    let mut wrong: Vec<[u8; KEY_BYTES]> = (0..8 * KEY_BYTES)
        .map(|bit| {
            let mut flipped = right;
            flipped[bit / 8] ^= 0x80 >> (bit % 8);
            flipped
        })
        .collect();
    wrong.extend([
        card_cryptogram(),
        hashed(&[&CARD_CHALLENGE, &PAIRING_SECRET]),
        hashed(&[&[0x50; KEY_BYTES], &CARD_CHALLENGE]),
        hashed(&[&CARD_CHALLENGE]),
        hashed(&[&PAIRING_SECRET]),
        hashed(&[&PAIRING_SECRET, &CARD_CHALLENGE, &[0x00]]),
        CARD_CHALLENGE,
        [0; KEY_BYTES],
    ]);
    for cryptogram in wrong {
        let mut card = waiting.clone();
        // No supply is read.
        assert_eq!(answered(&mut card, &pair_command(P1_PAIR_FINAL, &cryptogram), &[]), [0x69, 0x82]);
        assert!(!card.is_pairing_pending() && !card.slots()[0].is_filled());
        assert_eq!(card.to_bytes()[place("expected")], [0; KEY_BYTES]);
    }
    let last = pair_command(P1_PAIR_FINAL, &right);
    assert_eq!(answered(&mut waiting, &last, Supply::pair_final(&SALT).bytes())[0], 0);
}

/// After CHANGE the new secret is hashed; keys in slots stay.
#[test]
fn a_changed_secret() {
    let mut life = verified();
    let new_secret = rising(0x33);
    assert_eq!(life.sealed_status(CHANGE, P1_CHANGE_SECRET, &new_secret), StatusWord::SUCCESS);
    life.card.reset().expect("RESET");
    let slot = pair(&mut life.card, &new_secret, &rising(0x01), &rising(0x40), &rising(0x80));
    assert_eq!((slot, life.card.slots()[0].pairing_key()), (1, &pairing_key()));
}

/// A channel in which the PIN was verified.
fn verified() -> Life {
    let mut life = Life::in_channel();
    assert_eq!(life.sealed_status(VERIFY, 0x00, PIN), StatusWord::SUCCESS);
    life
}

/// LOAD with this public key in its supply; gives the response's plaintext.
fn load(life: &mut Life, p1: u8, data: &[u8], public_key: &[u8]) -> Vec<u8> {
    let command = life.seal(LOAD, p1, data);
    let response = answered(&mut life.card, &command, &[&[0x01], public_key].concat());
    let mut opened = vec![0; UNSEAL_ROOM_BYTES];
    let count = life.terminal.unseal(&response, &mut opened).expect("UNSEAL");
    opened.truncate(count);
    opened
}

/// The key UID is SHA-256 of the 65 bytes that the host supplies, whatever they are, for each form of LOAD: a public key in LOAD's own data is
/// neither hashed nor compared. SELECT and the stored record have it.
#[test]
fn the_key_uid_is_that_of_the_supplied_key() {
    let (key, chain) = ([0x21; KEY_BYTES], [0x22; KEY_BYTES]);
    let private_key = &key;
    let forms = [None, Some(&POINT)].map(|public_key| {
        let chain_code = &chain;
        let plain = LoadedKey::Plain { private_key, public_key };
        let extended = LoadedKey::Extended {
            private_key,
            chain_code,
            public_key,
        };
        [plain, extended]
    });
    let seed = LoadedKey::Seed(&[0x5E; SEED_BYTES]);
    let mut life = verified();
    for (number, form) in forms.into_iter().flatten().chain([seed]).enumerate() {
        let command = ChannelCommand::load(&form);
        for public_key in [rising::<65>(number as u8), rising(0x04), [0; 65], [0xFF; 65]] {
            let opened = load(&mut life, command.header()[2], command.data(), &public_key);
            let uid = hashed(&[&public_key]);
            assert_eq!(opened, [&uid[..], &[0x90, 0x00]].concat());
            assert_eq!(life.card.key_uid(), &uid);
            let select = life.clone().plain(&select_command());
            assert!(select.ends_with(&[&[0x8E, 32], &uid[..], &[0x90, 0x00]].concat()));
            let mut record = [0; WRITE_ROOM_BYTES];
            let record_bytes = life.card.write(&mut record).expect("WRITE");
            assert_eq!(Card::read(&record[..record_bytes]).expect("READ").key_uid(), &uid);
        }
    }
}

/// Each of the three supplies one byte shorter and longer, of its length up to version 0.6.0, and with another flag: refused, and the card stays.
#[test]
fn supplies_of_another_length() {
    let fresh_pairing = card_with_secret(&PAIRING_SECRET);
    let mut waiting = fresh_pairing.clone();
    let first = pair_command(P1_PAIR_FIRST, &CLIENT_CHALLENGE);
    answered(&mut waiting, &first, &CARD_CHALLENGE);
    let last = pair_command(P1_PAIR_FINAL, &client_cryptogram());
    let mut life = verified();
    let load = life.seal(LOAD, P1_LOAD_SEED, &[0x5E; SEED_BYTES]);
    for (card, command, kind, before_bytes) in [
        (fresh_pairing, first, SupplyKind::PairFirst, 96),
        (waiting, last, SupplyKind::PairFinal, 64),
        (life.card, load, SupplyKind::Load, 33),
    ] {
        let asked = card.ask(&command, &mut [0; ASK_ROOM_BYTES]).expect("ASK");
        assert_eq!(asked.kind, kind);
        let right_bytes = kind.bytes(command[2]);
        for supply_bytes in [0, 1, right_bytes - 1, right_bytes + 1, before_bytes, SUPPLY_MAX_BYTES] {
            refused(&card, &command, &vec![0x01; supply_bytes]);
        }
        if kind.has_flag() {
            refused(&card, &command, &vec![0x02; right_bytes]);
        }
        assert!(answered(&mut card.clone(), &command, &supply(kind)).ends_with(&[0x90, 0x00]));
    }
}

/// ANSWER refuses the supply, and changes neither card nor buffer.
fn refused(card: &Card, command: &[u8], supply: &[u8]) {
    let (mut next, mut buffer) = (card.clone(), [FILL; ANSWER_ROOM_BYTES]);
    let answered = next.answer(command, supply, &mut buffer);
    assert_eq!(answered, Err(Refusal::BadSupply), "{} bytes", supply.len());
    assert_eq!((&next, buffer), (card, [FILL; ANSWER_ROOM_BYTES]));
}
