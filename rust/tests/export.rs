//! EXPORT: a public key goes out, and the private key beside it only from m/43'/60'/1581' down (docs/RULES.md).

mod common;

use common::*;
use treadlewisp::command::*;
use treadlewisp::*;

const EVERY_P1: [u8; 3] = [P1_EXPORT_CURRENT, P1_EXPORT_DERIVE, P1_EXPORT_DERIVE_AND_MAKE_CURRENT];
const EVERY_P2: [u8; 2] = [P2_EXPORT_PRIVATE_AND_PUBLIC, P2_EXPORT_PUBLIC_ONLY];
/// m/44'/60', which is elsewhere.
const WALLET: [u8; 8] = [0x80, 0x00, 0x00, 0x2C, 0x80, 0x00, 0x00, 0x3C];

/// A channel in which the PIN was verified, on a card with an extended key.
fn with_key() -> Life {
    let mut life = Life::in_channel();
    assert_eq!(life.sealed_status(VERIFY, 0x00, PIN), StatusWord::SUCCESS);
    let loaded = life.sealed(LOAD, P1_LOAD_SEED, &[0x5E; 64]);
    assert_eq!(StatusWord::of(&loaded), Some(StatusWord::SUCCESS));
    life
}

/// The same life, where this is the current path.
fn on_path(life: &Life, path: &[u8]) -> Life {
    let mut life = life.clone();
    assert_eq!(life.sealed_status(DERIVE, 0x00, path), StatusWord::SUCCESS);
    life
}

fn header(p1: u8, p2: u8) -> [u8; HEADER_BYTES] {
    [CLASS_CARD, EXPORT, p1, p2]
}

/// Paths at the node of the chat keys, below it, above it and beside it, and whether a private key goes out.
fn paths() -> Vec<(Vec<u8>, bool)> {
    let node = EIP1581_PATH;
    let mut paths = vec![
        (node.to_vec(), true),
        ([&node[..], &[0x80, 0, 0, 0]].concat(), true),
        ([&node[..], &[0x01; PATH_MAX_BYTES - 12]].concat(), true),
        (WALLET.to_vec(), false),
        ([&node[4..], &[0; 4]].concat(), false),
    ];
    paths.extend([0, 4, 8].map(|bytes| (node[..bytes].to_vec(), false)));
    paths.extend((0..8 * node.len()).map(|bit| {
        let mut beside = node;
        beside[bit / 8] ^= 0x80 >> (bit % 8);
        (beside.to_vec(), false)
    }));
    paths
}

/// What goes out, and 9000.
fn answer(p2: u8) -> Vec<u8> {
    let private: &[u8] = if p2 == P2_EXPORT_PRIVATE_AND_PUBLIC {
        &[&[0x81, 32], &PRIVATE_KEY[..]].concat()
    } else {
        &[]
    };
    let length = u8::try_from(2 + PUBLIC_KEY_BYTES + private.len()).expect("one byte");
    [&[0xA1, length, 0x80, 65], &POINT[..], private, &[0x90, 0x00]].concat()
}

/// The card after is the card before, but for the channel's IV and this current path.
fn only_moved(before: &Card, after: &Card, current: &[u8]) {
    let mut bytes = before.to_bytes();
    let (path, iv) = (place("current"), place("iv"));
    bytes[path.clone()].fill(0);
    bytes[path.start] = u8::try_from(current.len()).expect("one byte");
    bytes[path.start + 1..][..current.len()].copy_from_slice(current);
    bytes[iv.clone()].copy_from_slice(&after.to_bytes()[iv]);
    assert_eq!(after.to_bytes(), bytes);
    assert_eq!(after.current_path().bytes(), current);
}

#[test]
fn every_path_with_every_p1_and_p2() {
    let life = with_key();
    for (path, is_inside) in paths() {
        let current = on_path(&life, &path);
        let elsewhere = on_path(&life, if is_inside { &WALLET } else { &EIP1581_PATH });
        for p1 in EVERY_P1 {
            for p2 in EVERY_P2 {
                let (from, data) = match p1 {
                    P1_EXPORT_CURRENT => (&current, &[][..]),
                    _ => (&elsewhere, &path[..]),
                };
                let mut life = from.clone();
                let opened = life.sealed_with_header(header(p1, p2), data);
                let goes_out = is_inside || p2 == P2_EXPORT_PUBLIC_ONLY;
                let wanted = if goes_out { answer(p2) } else { vec![0x69, 0x85] };
                assert_eq!(opened, wanted, "P1 {p1:02X}, P2 {p2:02X}, {path:02X?}");
                let moves = goes_out && p1 == P1_EXPORT_DERIVE_AND_MAKE_CURRENT;
                let left = if moves { &path } else { from.card.current_path().bytes() };
                only_moved(&from.card, &life.card, left);
            }
        }
    }
}

/// ASK names the supply with the opened data, and none where the private key does not go out.
#[test]
fn what_ask_tells() {
    let life = on_path(&with_key(), &WALLET);
    let asked = [
        (header(P1_EXPORT_CURRENT, P2_EXPORT_PUBLIC_ONLY), &[][..], SupplyKind::Export),
        (header(P1_EXPORT_DERIVE, P2_EXPORT_PUBLIC_ONLY), &WALLET, SupplyKind::Export),
        (
            header(P1_EXPORT_DERIVE, P2_EXPORT_PRIVATE_AND_PUBLIC),
            &EIP1581_PATH,
            SupplyKind::Export,
        ),
        (header(P1_EXPORT_DERIVE, P2_EXPORT_PRIVATE_AND_PUBLIC), &WALLET, SupplyKind::None),
        (header(P1_EXPORT_CURRENT, P2_EXPORT_PRIVATE_AND_PUBLIC), &[], SupplyKind::None),
    ];
    for (header, data, kind) in asked {
        let sealed = life.clone().seal_with_header(header, data);
        let mut buffer = [FILL; ASK_ROOM_BYTES];
        let asked = life.card.ask(&sealed, &mut buffer).expect("ASK");
        let handed_out = if kind == SupplyKind::None { &[] } else { data };
        assert_eq!((asked.kind, &buffer[..asked.count]), (kind, handed_out));
    }
}

/// Two supplies that differ in the private key alone: the answers are the same bytes where it does not go out, and only there.
#[test]
fn the_private_key_matters_only_where_it_goes_out() {
    let life = with_key();
    for (path, is_inside) in paths() {
        for p2 in EVERY_P2 {
            let command = life.clone().seal_with_header(header(P1_EXPORT_DERIVE, p2), &path);
            let results = [PRIVATE_KEY, [0x73; KEY_BYTES]].map(|private_key| {
                let mut card = life.card.clone();
                let mut buffer = [FILL; ANSWER_ROOM_BYTES];
                let supply = [&[0x01], &POINT[..], &private_key].concat();
                let count = card.answer(&command, &supply, &mut buffer);
                (card, count, buffer)
            });
            let goes_out = is_inside && p2 == P2_EXPORT_PRIVATE_AND_PUBLIC;
            assert_eq!(results[0] == results[1], !goes_out, "P2 {p2:02X}, {path:02X?}");
        }
    }
}

#[test]
fn supplies() {
    let mut life = on_path(&with_key(), &WALLET);
    let command = life.seal_with_header(header(P1_EXPORT_DERIVE_AND_MAKE_CURRENT, P2_EXPORT_PUBLIC_ONLY), &EIP1581_PATH);
    let right = supply(SupplyKind::Export);
    let with_flag = |flag: u8| [&[flag], &right[1..]].concat();
    let before = life.card.clone();
    let wrong = [
        vec![],
        vec![0],
        right[..66].to_vec(),
        right[..97].to_vec(),
        [&right[..], &[0]].concat(),
        with_flag(2),
    ];
    for wrong in wrong {
        let mut buffer = [FILL; ANSWER_ROOM_BYTES];
        assert_eq!(life.card.answer(&command, &wrong, &mut buffer), Err(Refusal::BadSupply));
        assert_eq!((&life.card, buffer), (&before, [FILL; ANSWER_ROOM_BYTES]));
    }
    let mut response = [FILL; ANSWER_ROOM_BYTES];
    let count = life.card.answer(&command, &with_flag(0), &mut response).expect("ANSWER").count;
    let mut opened = [FILL; UNSEAL_ROOM_BYTES];
    assert_eq!(life.terminal.unseal(&response[..count], &mut opened), Ok(STATUS_BYTES));
    assert_eq!(StatusWord::of(&opened[..STATUS_BYTES]), Some(StatusWord::REFERENCE_INVALID));
    only_moved(&before, &life.card, &WALLET);
}

/// P1 and P2 before key and PIN, those before the data, those before the place of the path.
#[test]
fn what_is_looked_at_first() {
    let mut keyless = Life::in_channel();
    assert_eq!(keyless.sealed_status(VERIFY, 0x00, PIN), StatusWord::SUCCESS);
    let mut plain_key = keyless.clone();
    let private = [&[0xA1, 34, 0x81, 32], &[0x5E; 32][..]].concat();
    assert_eq!(
        StatusWord::of(&plain_key.sealed(LOAD, P1_LOAD_PLAIN, &private)),
        Some(StatusWord::SUCCESS)
    );
    let mut unverified = on_path(&with_key(), &EIP1581_PATH);
    assert_eq!(unverified.sealed_status(SET_PINLESS_PATH, 0x00, &EIP1581_PATH), StatusWord::SUCCESS);
    assert_eq!(unverified.sealed_status(VERIFY, 0x00, WRONG_PIN), StatusWord::TRIES_LEFT_2);
    let mut ready = on_path(&with_key(), &WALLET);
    let word = |life: &mut Life, p1, p2, data: &[u8]| StatusWord::of(&life.sealed_with_header(header(p1, p2), data)).expect("two bytes");
    for life in [&mut keyless, &mut plain_key, &mut unverified] {
        for p1 in EVERY_P1 {
            for p2 in EVERY_P2 {
                assert_eq!(word(life, p1, p2, &EIP1581_PATH[..3]), StatusWord::CONDITIONS_NOT_MET);
            }
        }
        assert_eq!(
            word(life, P1_EXPORT_CURRENT, P2_EXPORT_PUBLIC_ONLY, &[]),
            StatusWord::CONDITIONS_NOT_MET
        );
        assert_eq!(word(life, 0x03, P2_EXPORT_PUBLIC_ONLY, &[]), StatusWord::WRONG_PARAMETERS);
    }
    for wrong in [0x03, 0x40, 0x80, 0xFF] {
        assert_eq!(word(&mut ready, wrong, P2_EXPORT_PUBLIC_ONLY, &[0]), StatusWord::WRONG_PARAMETERS);
    }
    for wrong in [0x02, 0x80, 0xFF] {
        assert_eq!(word(&mut ready, P1_EXPORT_DERIVE, wrong, &[0]), StatusWord::WRONG_PARAMETERS);
    }
    for data_bytes in 1..=DATA_MAX_BYTES {
        let data = vec![0x80; data_bytes];
        assert_eq!(
            word(&mut ready, P1_EXPORT_CURRENT, P2_EXPORT_PRIVATE_AND_PUBLIC, &data),
            StatusWord::WRONG_DATA
        );
        let is_path = data_bytes % COMPONENT_BYTES == 0 && data_bytes <= PATH_MAX_BYTES;
        let wanted = if is_path {
            StatusWord::CONDITIONS_NOT_MET
        } else {
            StatusWord::WRONG_DATA
        };
        assert_eq!(word(&mut ready, P1_EXPORT_DERIVE, P2_EXPORT_PRIVATE_AND_PUBLIC, &data), wanted);
    }
}

/// Before INIT the instruction is unknown; without a channel it is refused.
#[test]
fn without_a_channel() {
    let bare = header(P1_EXPORT_CURRENT, P2_EXPORT_PUBLIC_ONLY);
    assert_eq!(Life::fresh().plain(&bare), [0x6D, 0x00]);
    let mut life = with_key();
    assert_eq!(life.plain(&bare), [0x69, 0x82]);
    assert_eq!(life.card.stage(), Some(Stage::Closed));
    assert_eq!(life.plain(&bare), [0x69, 0x85]);
}
