//! The bytes of every supply and every command that is built by name, held against the drawings of docs/INTEGRATION.md, section 6. No two
//! parts have the same bytes, so that parts that changed places show.

mod common;

use common::plain::Aes;
use treadlewisp::*;

/// A part of its own bytes: they rise by one from the first.
fn part<const N: usize>(first: u8) -> [u8; N] {
    let mut next = first;
    [(); N].map(|()| {
        next = next.wrapping_add(1);
        next.wrapping_sub(1)
    })
}

/// The bytes of hexadecimal digits.
fn bytes(digits: &str) -> Vec<u8> {
    let pair = |at: usize| u8::from_str_radix(&digits[at..at + 2], 16).expect("hexadecimal digits");
    (0..digits.len()).step_by(2).map(pair).collect()
}

/// A part of a drawing: its offset, and its bytes.
type Drawn<'a> = (usize, &'a [u8]);

/// Whether the part lies at this offset of the bytes.
fn lies(bytes: &[u8], offset: usize, part: &[u8]) -> bool {
    bytes.get(offset..offset + part.len()) == Some(part)
}

#[test]
fn supplies_with_a_key_or_a_number() {
    let (key, point) = (part::<32>(0x20), part::<65>(0x04));
    let flagged = [&[0x01][..], &key].concat();
    let flagged_point = [&[0x01][..], &point].concat();
    for (supply, kind, bytes) in [
        (Supply::init(&key), SupplyKind::Init, &flagged[..]),
        (Supply::mutual(&key), SupplyKind::Mutual, &key),
        (Supply::pair_first(&key), SupplyKind::PairFirst, &key),
        (Supply::pair_final(&key), SupplyKind::PairFinal, &key),
        (Supply::load(&point), SupplyKind::Load, &flagged_point),
        (Supply::derive(), SupplyKind::Derive, &[0x01]),
    ] {
        assert_eq!((supply.kind(), supply.bytes()), (kind, bytes));
    }
}

/// Each part at the offset that the drawing has, and nothing besides.
#[test]
fn supplies_with_parts() {
    let (a, b, c) = (part::<32>(0x10), part::<32>(0x40), part::<32>(0x70));
    let (iv, point) = (part::<16>(0xA0), part::<65>(0x04));
    let open = Supply::open(&OpenParts {
        enc_key: &a,
        mac_key: &b,
        salt: &c,
        iv: &iv,
    });
    let sign = Supply::sign(&SignParts {
        public_key: &point,
        r: &a,
        s: &b,
    });
    let export = |private_key| {
        Supply::export(&ExportParts {
            public_key: &point,
            private_key,
        })
    };
    let yes: &[u8] = &[0x01];
    let drawings: [(Supply, SupplyKind, &[Drawn]); 4] = [
        (open, SupplyKind::Open, &[(0, yes), (1, &a), (33, &b), (65, &c), (97, &iv)]),
        (sign, SupplyKind::Sign, &[(0, &point), (65, &a), (97, &b)]),
        (export(Some(&a)), SupplyKind::Export, &[(0, yes), (1, &point), (66, &a)]),
        (export(None), SupplyKind::Export, &[(0, yes), (1, &point), (66, &[0; 32])]),
    ];
    for (supply, kind, parts) in drawings {
        assert_eq!(supply.kind(), kind);
        assert_eq!(
            supply.bytes().len(),
            parts.iter().map(|(_, part)| part.len()).sum::<usize>(),
            "{kind}"
        );
        for (offset, part) in parts {
            assert!(lies(supply.bytes(), *offset, part), "{kind}, offset {offset}");
        }
    }
}

/// Flag 00 and zeros, at the kind's length; the engine takes them.
#[test]
fn supplies_that_say_no() {
    let no = [
        (Supply::no_init(), SupplyKind::Init, 33),
        (Supply::no_open(), SupplyKind::Open, 113),
        (Supply::no_load(), SupplyKind::Load, 66),
        (Supply::no_derive(), SupplyKind::Derive, 1),
        (Supply::no_export(), SupplyKind::Export, 98),
    ];
    let with_flag = SupplyKind::ALL.into_iter().filter(|kind| kind.has_flag());
    assert!(with_flag.eq(no.iter().map(|(_, kind, _)| *kind)));
    for (supply, kind, bytes) in &no {
        assert_eq!((supply.kind(), supply.bytes()), (*kind, &vec![0; *bytes][..]));
    }
    let mut life = common::Life::fresh();
    let mut buffer = [0; ANSWER_ROOM_BYTES];
    let answered = life.card.answer(&common::init_command(), Supply::no_init().bytes(), &mut buffer);
    let count = answered.map(|answered| answered.count);
    assert_eq!((count, &buffer[..2]), (Ok(2), &[0x6A, 0x80][..]));
}

/// Entropy, and nothing besides: of the five lengths, and no other.
#[test]
fn supplies_of_entropy() {
    let entropy = part::<255>(0x20);
    for bytes in 0..entropy.len() {
        let supply = Supply::mnemonic(&entropy[..bytes]);
        if [16, 20, 24, 28, 32].contains(&bytes) {
            let supply = supply.expect("a supply");
            assert_eq!((supply.kind(), supply.bytes()), (SupplyKind::Mnemonic, &entropy[..bytes]));
        } else {
            assert_eq!(supply.err(), Some(Refusal::BadSupply), "{bytes} bytes");
        }
    }
}

/// What was put together elsewhere has to have the kind's length and a right flag.
#[test]
fn supplies_of_bytes() {
    for kind in SupplyKind::ALL {
        let right = common::supply(kind);
        let supply = Supply::from_bytes(kind, &right).expect("a supply");
        assert_eq!((supply.kind(), supply.bytes()), (kind, &right[..]));
        let longer = [&right[..], &[0x00]].concat();
        assert_eq!(Supply::from_bytes(kind, &longer).err(), Some(Refusal::BadSupply), "{kind}");
        if let Some((first, rest)) = right.split_first() {
            assert_eq!(Supply::from_bytes(kind, rest).err(), Some(Refusal::BadSupply), "{kind}");
            let other_flag = [&[first + 2][..], rest].concat();
            assert_eq!(Supply::from_bytes(kind, &other_flag).is_err(), kind.has_flag(), "{kind}");
        }
    }
}

#[test]
fn plain_commands() {
    let (key, point) = (part::<32>(0x20), part::<65>(0x04));
    let with = |head: [u8; 5], data: &[u8]| [&head[..], data].concat();
    for (command, bytes) in [
        (PlainCommand::select(), with([0x00, 0xA4, 0x04, 0x00, 15], b"StatusWalletApp")),
        (PlainCommand::pair_first(&key), with([0x80, 0x12, 0x00, 0x00, 32], &key)),
        (PlainCommand::pair_final(&key), with([0x80, 0x12, 0x01, 0x00, 32], &key)),
        (PlainCommand::open(0, &point), with([0x80, 0x10, 0x00, 0x00, 65], &point)),
        (PlainCommand::open(7, &point), with([0x80, 0x10, 0x07, 0x00, 65], &point)),
    ] {
        assert_eq!(command.bytes(), bytes);
    }
    let header = [0x80, 0xF2, 0x01, 0x02];
    for data_bytes in [0, 1, 255] {
        let data = vec![0x33; data_bytes];
        let lc: &[u8] = if data_bytes == 0 { &[] } else { &[data_bytes as u8] };
        let command = PlainCommand::new(&header, &data).expect("a command");
        assert_eq!(command.bytes(), [&header[..], lc, &data].concat());
    }
    assert_eq!(PlainCommand::new(&header, &[0; 256]).err(), Some(Refusal::TooLong));
}

/// The numbers of docs/INTEGRATION.md, 5.3, and the plain AES.
#[test]
fn init_is_enciphered_by_the_standards() {
    let aes_key: Vec<u8> = bytes("F40BB548D147B2C3CDCF635658C3FCA87A3C1F85C7AC006E9B9E80D4DC70D84D");
    let point = part::<65>(0x04);
    let parts = InitParts {
        aes_key: aes_key[..].try_into().expect("32 bytes"),
        point: &point,
        iv: &part(0xC0),
        pin: b"123456",
        puk: b"123456789012",
        pairing_secret: &part(0x70),
    };
    let ciphertext = bytes(concat!(
        "0BC678BF577AED7D302107010DD905BAE4F1749CD2F0FBF7E37F75C3A892B738",
        "64DA0606A82D0698770C4D0B4000A18155C2FB3B6535B0320E8DA6E546E2B166",
    ));
    let mut content = [&b"123456"[..], b"123456789012", &part::<32>(0x70), &[0x80], &[0; 13]].concat();
    Aes::new().cbc_encrypt(parts.aes_key, parts.iv, &mut content);
    assert_eq!(content, ciphertext);
    let head = [0x80, 0xFE, 0x00, 0x00, 146, 0x41];
    assert_eq!(
        PlainCommand::init(&parts).bytes(),
        [&head[..], &point, &part::<16>(0xC0), &ciphertext].concat()
    );
}

#[test]
fn commands_over_the_channel() {
    let (key, digits) = (part::<32>(0x20), b"271828182845314159");
    let (puk, pin): (&[u8; 12], &[u8; 6]) = (digits[..12].try_into().unwrap(), digits[12..].try_into().unwrap());
    let path = Path::new(&[44 + HARDENED, 60 + HARDENED, 7]).expect("a path");
    let path_bytes = bytes("8000002C8000003C00000007");
    let (both, public) = (ExportedKeys::PrivateAndPublic, ExportedKeys::Public);
    let commands: [(ChannelCommand, [u8; 4], &[u8]); 21] = [
        (ChannelCommand::mutual(&key), [0x80, 0x11, 0, 0], &key),
        (ChannelCommand::unpair(5), [0x80, 0x13, 5, 0], &[]),
        (ChannelCommand::status_tries(), [0x80, 0xF2, 0, 0], &[]),
        (ChannelCommand::status_path(), [0x80, 0xF2, 1, 0], &[]),
        (ChannelCommand::verify(pin), [0x80, 0x20, 0, 0], pin),
        (ChannelCommand::change_pin(pin), [0x80, 0x21, 0, 0], pin),
        (ChannelCommand::change_puk(puk), [0x80, 0x21, 1, 0], puk),
        (ChannelCommand::change_secret(&key), [0x80, 0x21, 2, 0], &key),
        (ChannelCommand::unblock(puk, pin), [0x80, 0x22, 0, 0], digits),
        (ChannelCommand::load(&LoadedKey::Seed(&[0x5E; 64])), [0x80, 0xD0, 3, 0], &[0x5E; 64]),
        (ChannelCommand::derive(&path), [0x80, 0xD1, 0, 0], &path_bytes),
        (ChannelCommand::remove(), [0x80, 0xD3, 0, 0], &[]),
        (ChannelCommand::set_pinless_path(&path), [0x80, 0xC1, 0, 0], &path_bytes),
        (ChannelCommand::sign(&key), [0x80, 0xC0, 0, 0], &key),
        (ChannelCommand::export_current(both), [0x80, 0xC2, 0, 0], &[]),
        (ChannelCommand::export_current(public), [0x80, 0xC2, 0, 1], &[]),
        (ChannelCommand::export(&path, both), [0x80, 0xC2, 1, 0], &path_bytes),
        (
            ChannelCommand::export_and_make_current(&path, public),
            [0x80, 0xC2, 2, 1],
            &path_bytes,
        ),
        (
            ChannelCommand::set_ndef(b"abc").expect("3 bytes"),
            [0x80, 0xF3, 0, 0],
            b"\x00\x03abc",
        ),
        (ChannelCommand::generate_mnemonic(Phrase::Words12), [0x80, 0xD2, 4, 0], &[]),
        (ChannelCommand::generate_mnemonic(Phrase::Words24), [0x80, 0xD2, 8, 0], &[]),
    ];
    for (command, header, data) in commands {
        assert_eq!((command.header(), command.data()), (&header, data));
        let mut life = common::Life::fresh();
        let sealed = command.seal(&mut life.terminal.clone()).expect("SEAL");
        assert_eq!(sealed.bytes(), life.seal_with_header(header, data));
    }
}

/// LOAD's four templates, with the lengths and offsets of the drawings.
#[test]
fn the_templates_of_load() {
    let (private_key, chain_code, point) = (part::<32>(0x20), part::<32>(0x50), part::<65>(0x04));
    let plain = |public_key| LoadedKey::Plain {
        private_key: &private_key,
        public_key,
    };
    let extended = |public_key| LoadedKey::Extended {
        private_key: &private_key,
        chain_code: &chain_code,
        public_key,
    };
    let drawings: [(LoadedKey, u8, &[u8], &[Drawn]); 4] = [
        (plain(None), 0x01, &[0xA1, 0x22], &[(2, &[0x81, 0x20]), (4, &private_key)]),
        (
            plain(Some(&point)),
            0x01,
            &[0xA1, 0x65],
            &[(2, &[0x80, 0x41]), (4, &point), (69, &[0x81, 0x20]), (71, &private_key)],
        ),
        (
            extended(None),
            0x02,
            &[0xA1, 0x44],
            &[(2, &[0x81, 0x20]), (4, &private_key), (36, &[0x82, 0x20]), (38, &chain_code)],
        ),
        (
            extended(Some(&point)),
            0x02,
            &[0xA1, 0x81, 0x87],
            &[
                (3, &[0x80, 0x41]),
                (5, &point),
                (70, &[0x81, 0x20]),
                (72, &private_key),
                (104, &[0x82, 0x20]),
                (106, &chain_code),
            ],
        ),
    ];
    for (key, p1, head, parts) in drawings {
        let command = ChannelCommand::load(&key);
        let (last, part) = parts.last().expect("parts");
        assert_eq!(command.header(), &[0x80, 0xD0, p1, 0x00]);
        assert_eq!(command.data().len(), last + part.len());
        assert!(lies(command.data(), 0, head));
        for (offset, part) in parts {
            assert!(lies(command.data(), *offset, part), "{head:02X?}, offset {offset}");
        }
    }
}

#[test]
fn lengths_that_are_too_long() {
    assert_eq!(Path::new(&[1; 10]).map(|path| path.bytes().len()), Some(PATH_MAX_BYTES));
    assert_eq!(Path::new(&[1; 11]), None);
    assert_eq!(Path::new(&[]), Path::from_bytes(&[]));
    for bytes in 0..=PATH_MAX_BYTES + COMPONENT_BYTES {
        let path = Path::from_bytes(&vec![0x80; bytes]);
        assert_eq!(path.is_some(), bytes % 4 == 0 && bytes <= 40, "{bytes} bytes");
        assert!(path.is_none_or(|path| path.bytes() == vec![0x80; bytes]));
    }
    let header = [0x80, 0x20, 0x00, 0x00];
    assert_eq!(ChannelCommand::new(&header, &[7; 223]).expect("223 bytes").data(), [7; 223]);
    assert_eq!(ChannelCommand::new(&header, &[7; 224]).err(), Some(Refusal::TooLong));
    assert_eq!(ChannelCommand::set_ndef(&[7; 221]).expect("221 bytes").data().len(), 223);
    for message_bytes in [222, 65_535, 65_536] {
        assert_eq!(ChannelCommand::set_ndef(&vec![7; message_bytes]).err(), Some(Refusal::TooLong));
    }
    assert!(Answer::from_bytes(&[0x90]).is_none() && Answer::from_bytes(&[0; 259]).is_none());
    assert_eq!(Answer::from_bytes(&[0; 258]).expect("258 bytes").data().len(), 256);
}

/// Neither a PIN nor a key is shown.
#[test]
fn debug_shows_no_secret() {
    assert_eq!(
        format!("{:?}", ChannelCommand::verify(b"123456")),
        "ChannelCommand { header: [80, 20, 00, 00], .. }"
    );
    assert_eq!(format!("{:?}", Supply::load(&[7; 65])), "Supply { kind: Load, .. }");
    let supply = Supply::mnemonic(&[7; 16]).expect("16 bytes");
    assert_eq!(format!("{supply:?}"), "Supply { kind: Mnemonic, .. }");
    let answer = Answer::from_bytes(&[0x31, 0x32, 0x90, 0x00]).expect("an answer");
    assert_eq!(
        format!("{answer:?}"),
        "Answer { status: 9000 (success), data_bytes: 2, fault_offset: None, .. }"
    );
}
