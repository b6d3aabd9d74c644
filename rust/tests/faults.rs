//! The fault offset: where WALK's refusals have it, where ANSWER tells it, and where it tells none (docs/RULES.md). Lengths and offsets are in
//! bytes.

#[path = "common/desk.rs"]
mod desk;

mod common;

use common::*;
use desk::Desk;
use treadlewisp::command::*;
use treadlewisp::*;

/// WALK's count of fields, or its refusal and offset.
fn walked(input: &[u8]) -> Result<usize, (Refusal, usize)> {
    walk(input).map_err(|fault| (fault.refusal, fault.offset))
}

/// A template of these fields.
fn template(fields: &[&[u8]]) -> Vec<u8> {
    let content = fields.concat();
    let long: &[u8] = if content.len() > 0x7F { &[0x81] } else { &[] };
    [&[0xA1], long, &[u8::try_from(content.len()).expect("one byte")], &content].concat()
}

/// A channel in which the PIN was verified.
fn verified() -> Life {
    let mut life = Life::in_channel();
    assert_eq!(life.sealed_status(VERIFY, 0x00, PIN), StatusWord::SUCCESS);
    life
}

/// A command over the channel, with the supply that ASK names: its status word, and ANSWER's fault offset.
fn told(life: &mut Life, header: [u8; HEADER_BYTES], data: &[u8]) -> (StatusWord, Option<usize>) {
    let command = life.seal_with_header(header, data);
    let asked = life.card.ask(&command, &mut [0; ASK_ROOM_BYTES]).expect("ASK");
    let mut response = [FILL; ANSWER_ROOM_BYTES];
    let answered = life.card.answer(&command, &supply(asked.kind), &mut response).expect("ANSWER");
    let mut opened = [0; UNSEAL_ROOM_BYTES];
    let opened_bytes = life.terminal.unseal(&response[..answered.count], &mut opened).expect("UNSEAL");
    (StatusWord::of(&opened[..opened_bytes]).expect("two bytes"), answered.fault_offset)
}

fn told_load(life: &mut Life, p1: u8, data: &[u8]) -> (StatusWord, Option<usize>) {
    told(life, card_header(LOAD, p1), data)
}

const PRIVATE: [u8; 34] = key_field(0x81);
const CHAIN: [u8; 34] = key_field(0x82);

/// A field of 32 bytes.
const fn key_field(tag: u8) -> [u8; 34] {
    let mut field = [0x5E; 34];
    field[0] = tag;
    field[1] = 32;
    field
}

/// The four templates that LOAD takes, with their P1.
fn templates() -> [(u8, Vec<u8>); 4] {
    let public = [&[0x80, 65], &POINT[..]].concat();
    [
        (P1_LOAD_PLAIN, template(&[&PRIVATE])),
        (P1_LOAD_PLAIN, template(&[&public, &PRIVATE])),
        (P1_LOAD_EXTENDED, template(&[&PRIVATE, &CHAIN])),
        (P1_LOAD_EXTENDED, template(&[&public, &PRIVATE, &CHAIN])),
    ]
}

/// Each kind of fault, at the top and inside of templates. The offset is that of the tag of the field that is at fault first.
#[test]
fn where_walk_is_refused() {
    let malformed: [(&[u8], usize); 14] = [
        (&[0x80], 0),                                           // no length
        (&[0x80, 0x81], 0),                                     // a length of two bytes, cut
        (&[0x80, 0x80, 0x00], 0),                               // 80 is no length
        (&[0x80, 0x81, 0x7F], 0),                               // a small length after 81
        (&[0x80, 0x82, 0x01, 0x00], 0),                         // a length of two bytes after 82
        (&[0x80, 0x01], 0),                                     // its end lies beyond the input
        (&[0x80, 0x00, 0x81, 0x02, 0x99], 2),                   // the second field
        (&[0xA1, 0x02, 0x80], 0),                               // the template itself ends beyond the input
        (&[0xA1, 0x02, 0x80, 0x01, 0x99], 2),                   // the inner field ends beyond the template, though not beyond the input
        (&[0xA1, 0x01, 0x80], 2),                               // inside, no length
        (&[0xA1, 0x04, 0x80, 0x00, 0x81, 0x01], 4),             // inside, the second field
        (&[0xA1, 0x04, 0xA2, 0x02, 0x80, 0x05], 4),             // two deep
        (&[0x80, 0x01, 0x99, 0xA1, 0x03, 0x80, 0x81, 0x05], 5), // inside, after another field
        (&[0xA1, 0x00, 0x81], 2),                               // after an empty template
    ];
    for (input, offset) in malformed {
        assert_eq!(walked(input), Err((Refusal::Malformed, offset)), "{input:02X?}");
    }
    assert_eq!(walked(&nested(4)), Ok(1));
    for depth in 5..=20 {
        // The fifth template: four heads of two bytes are before it.
        assert_eq!(walked(&nested(depth)), Err((Refusal::TooDeep, 8)));
        let later = [&[0x80, 0x01, 0x99][..], &nested(depth)].concat();
        assert_eq!(walked(&later), Err((Refusal::TooDeep, 3 + 8)));
        assert_eq!(walked(&[&nested(depth)[..], &[0x80]].concat()), Err((Refusal::TooDeep, 8)));
    }
}

/// An offset may be over 255: the input may have any length.
#[test]
fn offsets_over_255() {
    let longest = [&[0x80, 0x81, 0xFF][..], &[0x99; 255]].concat();
    for fields in [1, 2, 100, 1_000] {
        let whole = longest.repeat(fields);
        assert_eq!(walked(&whole), Ok(fields));
        let cut = [&whole[..], &[0x81, 0x01]].concat();
        assert_eq!(walked(&cut), Err((Refusal::Malformed, 258 * fields)));
        let deep = [&whole[..], &nested(5)].concat();
        assert_eq!(walked(&deep), Err((Refusal::TooDeep, 258 * fields + 8)));
    }
}

/// Input that is cut anywhere: the fault is in the outermost field that lost bytes.
#[test]
fn every_cut_of_three_fields() {
    let fields = [&[0x80, 0x01, 0x99][..], &[0xA1, 0x04, 0x81, 0x02, 0x11, 0x22], &[0x82, 0x00]];
    let (whole, starts) = (fields.concat(), [0, 3, 9, 11]);
    for bytes in 0..=whole.len() {
        let before = starts.into_iter().filter(|&start| start <= bytes).max();
        let expected = match starts.contains(&bytes) {
            true => Ok(starts.iter().filter(|&&start| start < bytes).count()),
            false => Err((Refusal::Malformed, before.expect("0 is one"))),
        };
        assert_eq!(walked(&whole[..bytes]), expected, "{bytes} bytes");
    }
}

/// The message of LENGTHS: 0100 typed for the length of a key, where one byte belongs.
#[test]
fn a_length_of_256() {
    let mut life = verified();
    let data = [&[0xA1, 0x23, 0x81, 0x01, 0x00][..], &[0x11; 32]].concat();
    assert_eq!(walked(&data), Err((Refusal::Malformed, 24)));
    assert_eq!(told_load(&mut life, P1_LOAD_PLAIN, &data), (StatusWord::WRONG_DATA, Some(24)));
    assert_eq!(told_load(&mut life, P1_LOAD_EXTENDED, &data), (StatusWord::WRONG_DATA, Some(24)));
}

/// LOAD of the four templates, cut to each length, and with each byte of a head changed: ANSWER tells WALK's offset where WALK refuses the data,
/// and none elsewhere; and it never gives 9000 where WALK refuses.
#[test]
fn load_tells_what_walk_tells() {
    let life = verified();
    let (mut places, mut none) = (std::collections::BTreeSet::new(), 0);
    for (p1, whole) in templates() {
        assert_eq!(told_load(&mut life.clone(), p1, &whole), (StatusWord::SUCCESS, None));
        let cuts = (0..whole.len()).map(|bytes| whole[..bytes].to_vec());
        let heads = (0..whole.len()).filter(|&at| at < 8 || !matches!(whole[at], 0x04 | 0x5E));
        let changed = heads.flat_map(|at| {
            [0x00, 0x1F, 0x21, 0x40, 0x7F, 0x80, 0x81, 0xA1, 0xFF].map(|value| {
                let mut data = whole.clone();
                data[at] = value;
                data
            })
        });
        for data in cuts.chain(changed) {
            let (status, offset) = told_load(&mut life.clone(), p1, &data);
            let expected = walk(&data).err().map(|fault| fault.offset);
            assert_eq!(offset, expected, "{data:02X?}");
            assert!(expected.is_none() || status == StatusWord::WRONG_DATA, "{data:02X?}");
            match offset {
                Some(offset) => _ = places.insert(offset),
                None => none += 1,
            }
        }
    }
    // The tags of the four templates: A1, and the first, second and third field after heads of two and of three bytes.
    for tag_at in [0, 2, 3, 36, 69, 70, 104] {
        assert!(places.contains(&tag_at), "no fault at {tag_at}");
    }
    assert!(none > 0);
}

/// The number is WALK's also where a field that LOAD does not take stands before the fault.
#[test]
fn a_wrong_field_before_the_fault() {
    let mut life = verified();
    let data = template(&[&[0x83, 0x01, 0x00], &[0x81, 0x20, 0x11]]);
    assert_eq!(walked(&data), Err((Refusal::Malformed, 5)));
    assert_eq!(told_load(&mut life, P1_LOAD_PLAIN, &data), (StatusWord::WRONG_DATA, Some(5)));
    let deep = nested(5);
    assert_eq!(told_load(&mut life, P1_LOAD_EXTENDED, &deep), (StatusWord::WRONG_DATA, Some(8)));
}

/// The last tag that there can be: data have at most 223 bytes.
#[test]
fn the_greatest_offset() {
    let mut life = verified();
    let data = [&[0x80, 0x81, 0xDB][..], &[0x99; 219], &[0x81]].concat();
    assert_eq!(data.len(), DATA_MAX_BYTES);
    assert_eq!(told_load(&mut life, P1_LOAD_PLAIN, &data), (StatusWord::WRONG_DATA, Some(222)));
}

/// 6A80 for another reason, other status words, other commands with the same data: no offset.
#[test]
fn where_there_is_none() {
    let life = verified();
    let malformed = [0xA1, 0x02, 0x81, 0x20];
    let whole: [(u8, Vec<u8>); 7] = [
        (P1_LOAD_PLAIN, vec![]),
        (P1_LOAD_PLAIN, PRIVATE.to_vec()),
        (P1_LOAD_PLAIN, template(&[&PRIVATE, &CHAIN])),
        (P1_LOAD_EXTENDED, template(&[&PRIVATE])),
        (P1_LOAD_EXTENDED, template(&[&CHAIN, &PRIVATE])),
        (P1_LOAD_PLAIN, [template(&[&PRIVATE]), vec![0x80, 0x00]].concat()),
        (P1_LOAD_SEED, malformed.to_vec()),
    ];
    for (p1, data) in &whole {
        assert_eq!(
            told_load(&mut life.clone(), *p1, data),
            (StatusWord::WRONG_DATA, None),
            "{data:02X?}"
        );
    }
    for p1 in [0x00, 0x04, 0xFF] {
        assert_eq!(told_load(&mut life.clone(), p1, &malformed), (StatusWord::WRONG_PARAMETERS, None));
    }
    let mut wrong_p2 = life.clone();
    let header = [CLASS_CARD, LOAD, P1_LOAD_PLAIN, 0x01];
    assert_eq!(told(&mut wrong_p2, header, &malformed), (StatusWord::WRONG_PARAMETERS, None));
    let mut unverified = life.clone();
    assert_eq!(unverified.sealed_status(VERIFY, 0x00, WRONG_PIN), StatusWord::TRIES_LEFT_2);
    assert_eq!(
        told_load(&mut unverified, P1_LOAD_PLAIN, &malformed),
        (StatusWord::CONDITIONS_NOT_MET, None)
    );
    let others = [
        VERIFY,
        CHANGE,
        UNBLOCK,
        DERIVE,
        SET_PINLESS_PATH,
        SIGN,
        EXPORT,
        SET_NDEF,
        GET_STATUS,
        REMOVE,
        UNPAIR,
        MUTUAL,
        GENERATE_MNEMONIC,
    ];
    for instruction in others {
        for p1 in [0x00, P1_MNEMONIC_12_WORDS] {
            let (_, offset) = told(&mut life.clone(), card_header(instruction, p1), &malformed);
            assert_eq!(offset, None, "{instruction:02X}");
        }
    }
}

/// Flag 00 in LOAD's supply is 6A80 too, and has no offset; a refused ANSWER has none either.
#[test]
fn what_a_supply_does_not_tell() {
    for (p1, data) in templates() {
        let mut life = verified();
        let command = life.seal(LOAD, p1, &data);
        let mut response = [FILL; ANSWER_ROOM_BYTES];
        assert_eq!(life.card.answer(&command, &[0x00], &mut response), Err(Refusal::BadSupply));
        let answered = life
            .card
            .answer(&command, Supply::no_load().bytes(), &mut response)
            .expect("ANSWER");
        assert_eq!(answered.fault_offset, None);
        let mut opened = [0; UNSEAL_ROOM_BYTES];
        assert_eq!(life.terminal.unseal(&response[..answered.count], &mut opened), Ok(STATUS_BYTES));
        assert_eq!(opened[..STATUS_BYTES], [0x6A, 0x80]);
        assert_eq!(life.card.key_kind(), Some(KeyKind::None));
    }
}

/// Two faults at different places: responses of one length, the same plaintext, and cards that differ from the one before in the IV alone.
#[test]
fn the_response_tells_nothing_of_the_place() {
    let results = [&[0xA1, 0x02, 0x81, 0x20][..], &[0xA1, 0x03, 0x81, 0x00, 0x82]].map(|data| {
        let mut life = verified();
        let before = life.card.to_bytes();
        let command = life.seal(LOAD, P1_LOAD_PLAIN, data);
        let mut response = [FILL; ANSWER_ROOM_BYTES];
        let answered = life.card.answer(&command, &[], &mut response).expect("ANSWER");
        let mut after = life.card.to_bytes();
        after[place("iv")].copy_from_slice(&before[place("iv")]);
        assert_eq!(after, before);
        let mut opened = [0; UNSEAL_ROOM_BYTES];
        let opened_bytes = life.terminal.unseal(&response[..answered.count], &mut opened);
        (answered.count, opened_bytes, opened, answered.fault_offset)
    });
    assert_eq!(
        (results[0].0, results[0].1, results[0].2),
        (results[1].0, results[1].1, results[1].2)
    );
    assert_eq!((results[0].3, results[1].3), (Some(2), Some(4)));
}

/// The host's end has the offset; so has an exchange in one program, and what came over a wire has none.
#[test]
fn an_answer_has_it() {
    let (mut life, mut desk) = (verified(), Desk::new());
    let load = ChannelCommand::new(&[0x80, LOAD, P1_LOAD_EXTENDED, 0x00], &[0xA1, 0x02, 0x81, 0x20]).expect("4 bytes");
    let answer = exchange(&mut life.terminal, &mut life.card, &mut desk, &load).expect("an answer");
    assert_eq!((answer.status(), answer.fault_offset()), (StatusWord::WRONG_DATA, Some(2)));
    assert_eq!(
        format!("{answer:?}"),
        "Answer { status: 6A80 (wrong data), data_bytes: 0, fault_offset: Some(2), .. }"
    );
    let sealed = load.seal(&mut life.terminal).expect("SEAL");
    let answer = life.card.serve(&mut desk, sealed.bytes()).expect("an answer");
    assert_eq!((answer.bytes().len(), answer.fault_offset()), (34, Some(2)));
    assert_eq!(Answer::from_bytes(answer.bytes()).expect("an answer").fault_offset(), None);
    let good = ChannelCommand::load(&LoadedKey::Seed(&[0x5E; SEED_BYTES]));
    life.open();
    life.mutual();
    let answer = exchange(&mut life.terminal, &mut life.card, &mut desk, &good).expect("an answer");
    assert_eq!((answer.status(), answer.fault_offset()), (StatusWord::CONDITIONS_NOT_MET, None));
}

#[test]
fn a_fault_in_words() {
    use std::error::Error;
    let fault = walk(&nested(5)).expect_err("too deep");
    assert_eq!(fault.to_string(), "refusal 5: templates nest deeper than 4; the field at byte 8");
    assert!(fault
        .source()
        .is_some_and(|source| source.to_string() == Refusal::TooDeep.to_string()));
    assert_eq!(Refusal::from(fault), Refusal::TooDeep);
}
