//! ANSWER's number and WALK's fault offset: LOAD with P1 01 and 02 and a fault at each place of a template, every cause for 255, and faults
//! further from the start than a byte can tell. What is wanted is told here, apart from the model. Lengths and offsets are in bytes.

use crate::both::{hex, Both};
use crate::directed::ready_card;
use crate::faults::first_fault;
use crate::host::room;
use crate::keypairs::{field, nested, Template, BROKEN, MOST_SHORT_BYTES};
use crate::may_occur::Situation;
use crate::requests::{is_sealed_kind, Request};
use crate::sending::{only_iv_moved, sealed, send, Got};
use outside::model::card::{Card, NO, POINT_BYTES, YES};
use outside::model::commands::{Name, INSTRUCTIONS};
use outside::model::engine::{ANSWER_ROOM_BYTES, NO_FAULT};
use outside::model::message::MAX_DATA_BYTES;
use outside::model::status::*;
use outside::random::choice::some_bytes;
use outside::random::Random;

pub fn run(both: &mut Both, seed: u64) {
    both.walk = "the fault offsets".to_string();
    let mut random = Random::new(seed.rotate_left(23));
    let random = &mut random;
    for (p1, with_public_key) in [(0x01, false), (0x01, true), (0x02, false), (0x02, true)] {
        let template = Template::of(random, p1, with_public_key);
        heads(both, random, &template);
        cuts(both, random, &template);
        behind(both, random, &template);
        long_ends(both, random, &template);
    }
    deep_templates(both, random);
    accepted_and_wrong(both, random);
    other_causes(both, random);
    other_commands(both, random);
    refused_calls(both, random);
    not_kept(both, random);
    walks(both, random);
}

fn fail(what: &str, data: &[u8]) -> ! {
    println!("THE FAULT OFFSETS: {what}: {}", hex(data));
    std::process::exit(1);
}

/// LOAD with these data on a card that takes keys. Where it is wrong the supply, which can be any, is not read, and nothing of the card but
/// the IV changes.
fn load(both: &mut Both, random: &mut Random, p1: u8, data: &[u8]) -> (u16, usize) {
    let card = ready_card(random, Situation::Authenticated);
    load_on(both, random, &card, p1, data)
}

fn load_on(both: &mut Both, random: &mut Random, card: &Card, p1: u8, data: &[u8]) -> (u16, usize) {
    let right = [&[YES], &random.bytes(POINT_BYTES)[..]].concat();
    let other = some_bytes(random, 0, 100);
    let mut got = send(both, random, card, &Request::new(Name::Load, p1, data), &other);
    if got.kind != 0 {
        got = send(both, random, card, &Request::new(Name::Load, p1, data), &right);
    }
    let Got {
        answered, opened, next, ..
    } = got;
    let status = answered.status.unwrap_or(0);
    let is_wrong = status == WRONG_DATA;
    if is_wrong && (opened != WRONG_DATA.to_be_bytes() || !only_iv_moved(card, &next) || got.kind != 0) {
        fail("LOAD with wrong data changed the card, read a supply or answered more", data);
    }
    (status, answered.fault_offset)
}

/// LOAD has to give this word and this number.
fn gives(both: &mut Both, random: &mut Random, p1: u8, data: &[u8], status: u16, number: usize) {
    let got = load(both, random, p1, data);
    if got != (status, number) {
        let (word, offset) = got;
        fail(
            &format!("LOAD with P1 {p1:02x} gave {word:04x} and {offset} instead of {status:04x} and {number}"),
            data,
        );
    }
}

/// Every other byte in place of each byte of a head. It is never right: where WALK still takes the template, another tag or length stands
/// there.
fn heads(both: &mut Both, random: &mut Random, template: &Template) {
    gives(both, random, template.p1, &template.bytes, SUCCESS, NO_FAULT);
    for at in template.head_bytes() {
        for byte in 0..=0xff {
            let mut data = template.bytes.clone();
            if data[at] == byte {
                continue;
            }
            data[at] = byte;
            let number = first_fault(&data).map_or(NO_FAULT, |(_, offset)| offset);
            gives(both, random, template.p1, &data, WRONG_DATA, number);
        }
    }
}

/// Cut anywhere, A1 ends after the data, so that it is the faulty field. Without data there is none.
fn cuts(both: &mut Both, random: &mut Random, template: &Template) {
    for bytes in 0..template.bytes.len() {
        let number = if bytes == 0 { NO_FAULT } else { 0 };
        gives(both, random, template.p1, &template.bytes[..bytes], WRONG_DATA, number);
    }
}

/// After the template a byte that is no field, a field without its value, a broken one, and whole fields up to the most data.
fn behind(both: &mut Both, random: &mut Random, template: &Template) {
    let end = template.bytes.len();
    for more in [
        &[0x80][..],
        &[0xa1],
        &[0x80, 0x01],
        &BROKEN,
        &[0xa1, 0x01, 0x80],
        &[0x80, 0x00, 0x81],
    ] {
        let data = [&template.bytes, more].concat();
        let number = match more {
            [0xa1, 0x01, 0x80] | [0x80, 0x00, 0x81] => end + 2,
            _ => end,
        };
        gives(both, random, template.p1, &data, WRONG_DATA, number);
    }
    for fields in 1..=(MAX_DATA_BYTES - end) / 2 {
        let data = [&template.bytes[..], &[0x80, 0x00].repeat(fields)].concat();
        gives(both, random, template.p1, &data, WRONG_DATA, NO_FAULT);
    }
    let mut data = template.bytes.clone();
    while data.len() + BROKEN.len() <= MAX_DATA_BYTES {
        let number = data.len();
        gives(both, random, template.p1, &[&data[..], &BROKEN].concat(), WRONG_DATA, number);
        data.extend([0x80, 0x00]);
    }
}

/// The last field a byte longer or shorter than A1 has room for; each field that is broken.
fn long_ends(both: &mut Both, random: &mut Random, template: &Template) {
    let last = template.tags[template.tags.len() - 1];
    let mut data = template.bytes.clone();
    data[last + 1] += 1;
    gives(both, random, template.p1, &data, WRONG_DATA, last);
    data[last + 1] -= 2;
    gives(both, random, template.p1, &data, WRONG_DATA, data.len() - 1);
    for &tag in &template.tags {
        let mut data = template.bytes.clone();
        data[tag + 1] = 0xff;
        gives(both, random, template.p1, &data, WRONG_DATA, tag);
    }
}

/// The fifth template is too deep, after four heads, each of two bytes or of three, and the fields before it; what is in it is not looked at.
/// A broken field before it is found first.
fn deep_templates(both: &mut Both, random: &mut Random) {
    for p1 in [0x01, 0x02] {
        for templates in 1..=10 {
            for inside in [&[][..], &[0x80, 0x00], &BROKEN, &[0x80]] {
                let is_deep = templates > 4;
                let number = match inside {
                    _ if is_deep => 8,
                    [] | [0x80, 0x00] => NO_FAULT,
                    _ => 2 * templates,
                };
                gives(both, random, p1, &nested(templates, inside), WRONG_DATA, number);
            }
        }
        let behind_a_field = nested(4, &[0x80, 0x00, 0xa1, 0x00]);
        gives(both, random, p1, &behind_a_field, WRONG_DATA, 10);
        let long = nested(5, &field(0x80, &random.bytes(MOST_SHORT_BYTES + 1)));
        gives(both, random, p1, &long, WRONG_DATA, 12);
        let after = [&nested(4, &[])[..], &nested(5, &[])].concat();
        gives(both, random, p1, &after, WRONG_DATA, 16);
        gives(both, random, p1, &[&nested(5, &[])[..], &BROKEN].concat(), WRONG_DATA, 8);
        gives(both, random, p1, &[&BROKEN[..], &nested(5, &[])].concat(), WRONG_DATA, 0);
    }
}

/// Data that WALK accepts and LOAD does not: 255. Where a wrong tag stands before a fault, the number is the fault's.
fn accepted_and_wrong(both: &mut Both, random: &mut Random) {
    let single = Template::of(random, 0x01, false).bytes;
    let extended = Template::of(random, 0x02, false).bytes;
    let mut other_tag = single.clone();
    other_tag[0] = 0xa2;
    for data in [
        &[][..],
        &[0x80, 0x00],
        &[0xa1, 0x00],
        &other_tag,
        &single[2..],
        &[&single[..], &single].concat(),
    ] {
        for p1 in [0x01, 0x02] {
            gives(both, random, p1, data, WRONG_DATA, NO_FAULT);
        }
    }
    gives(both, random, 0x01, &extended, WRONG_DATA, NO_FAULT);
    gives(both, random, 0x02, &single, WRONG_DATA, NO_FAULT);
    let faulty = [&other_tag[..], &BROKEN].concat();
    gives(both, random, 0x01, &faulty, WRONG_DATA, other_tag.len());
    gives(both, random, 0x02, &[&[0x01, 0x00][..], &BROKEN].concat(), WRONG_DATA, 2);
}

/// P1 03, whose data are no template: 255 whatever WALK would say of them.
fn other_causes(both: &mut Both, random: &mut Random) {
    let accepted = [0x80, 0x00].repeat(32);
    let deep = [nested(5, &[]), vec![0; 54]].concat();
    for (data, status) in [
        (&accepted[..], SUCCESS),
        (&deep, SUCCESS),
        (&[0xff; 64], SUCCESS),
        (&BROKEN, WRONG_DATA),
    ] {
        gives(both, random, 0x03, data, status, NO_FAULT);
    }
    gives(both, random, 0x03, &nested(5, &[]), WRONG_DATA, NO_FAULT);
    gives(both, random, 0x03, &[], WRONG_DATA, NO_FAULT);
    gives(both, random, 0x03, &accepted[2..], WRONG_DATA, NO_FAULT);
    for p1 in [0x00, 0x04, 0x81, 0xff] {
        gives(both, random, p1, &BROKEN, WRONG_P1_P2, NO_FAULT);
    }
    for p1 in [0x01, 0x02, 0x03] {
        let mut card = ready_card(random, Situation::Authenticated);
        card.verified = NO;
        if load_on(both, random, &card, p1, &BROKEN) != (CONDITIONS_NOT_SATISFIED, NO_FAULT) {
            fail("LOAD without the PIN", &[p1]);
        }
    }
}

/// A number of 255, whatever else comes of the command.
fn no_number(both: &mut Both, random: &mut Random, card: &Card, request: &Request, supply: &[u8], status: u16) {
    let got = send(both, random, card, request, supply);
    if (got.answered.status, got.answered.fault_offset) != (Some(status), NO_FAULT) {
        fail(&format!("{:?} gave {:x?}", request.name, got.answered), &request.plain());
    }
}

/// P2 of LOAD, flag 00, and every other command over the channel with data that WALK refuses.
fn other_commands(both: &mut Both, random: &mut Random) {
    for p1 in [0x01, 0x02, 0x03] {
        let card = ready_card(random, Situation::Authenticated);
        let mut request = Request::new(Name::Load, p1, &BROKEN);
        request.header[3] = 0x01;
        no_number(both, random, &card, &request, &[], WRONG_P1_P2);
        let data = match p1 {
            0x03 => random.bytes(64),
            _ => Template::of(random, p1, true).bytes,
        };
        let no = [&[NO], &random.bytes(POINT_BYTES)[..]].concat();
        no_number(both, random, &card, &Request::new(Name::Load, p1, &data), &no, WRONG_DATA);
    }
    for (name, status) in [
        (Name::Verify, WRONG_ENTRY + 2),
        (Name::Change, WRONG_DATA),
        (Name::Unblock, CONDITIONS_NOT_SATISFIED),
        (Name::Derive, WRONG_DATA),
        (Name::SetPinlessPath, WRONG_DATA),
        (Name::Sign, WRONG_DATA),
        (Name::Export, WRONG_DATA),
        (Name::SetNdef, WRONG_DATA),
        (Name::Mnemonic, WRONG_DATA),
        (Name::Mutual, CONDITIONS_NOT_SATISFIED),
        (Name::Status, SUCCESS),
        (Name::Remove, SUCCESS),
        (Name::Unpair, SUCCESS),
    ] {
        let card = ready_card(random, Situation::Authenticated);
        let p1 = if name == Name::Mnemonic { 0x04 } else { 0x00 };
        no_number(both, random, &card, &Request::new(name, p1, &BROKEN), &[], status);
    }
    let rest = INSTRUCTIONS.iter().filter(|(name, _)| !is_sealed_kind(*name));
    for (name, _) in rest {
        for situation in [Situation::PreInitialised, Situation::Closed, Situation::Authenticated] {
            let mut card = ready_card(random, situation);
            let command = Request::new(*name, 0x01, &BROKEN).plain();
            let answered = both.answer(&mut card, &command, &[], &mut room(random, ANSWER_ROOM_BYTES));
            if answered.fault_offset != NO_FAULT {
                fail(&format!("{name:?} gave {answered:x?}"), &command);
            }
        }
    }
}

/// The number of a refused call is 255, also for LOAD with a fault: an unsound card, a short buffer; and a wrong supply for right data. So is
/// that of a command which does not open.
fn refused_calls(both: &mut Both, random: &mut Random) {
    let template = Template::of(random, 0x02, true);
    let broken = [&template.bytes[..], &BROKEN].concat();
    let card = ready_card(random, Situation::Authenticated);
    let mut unsound = card;
    unsound.pin_tries = 0;
    for (card, data, room_bytes, refusal) in [
        (unsound, &broken, ANSWER_ROOM_BYTES, UNSOUND),
        (card, &broken, ANSWER_ROOM_BYTES - 1, SHORT_BUFFER),
        (unsound, &broken, 0, UNSOUND),
        (card, &template.bytes, ANSWER_ROOM_BYTES, WRONG_SUPPLY),
    ] {
        let command = sealed(&card, &Request::new(Name::Load, 0x02, data));
        let mut left = card;
        let answered = both.answer(&mut left, &command, &[], &mut random.bytes(room_bytes));
        if (answered.told.refusal, answered.fault_offset) != (refusal, NO_FAULT) || left != card {
            fail(&format!("refused, it gave {answered:x?}"), &command);
        }
    }
    let mut command = sealed(&card, &Request::new(Name::Load, 0x02, &broken));
    command[5] ^= 1;
    let answered = both.answer(&mut card.clone(), &command, &[], &mut room(random, ANSWER_ROOM_BYTES));
    if (answered.status, answered.fault_offset) != (Some(SECURITY_NOT_SATISFIED), NO_FAULT) {
        fail(&format!("not opened, it gave {answered:x?}"), &command);
    }
}

/// One card: after a number, other answers have none, and the next fault has its own.
fn not_kept(both: &mut Both, random: &mut Random) {
    let mut card = ready_card(random, Situation::Authenticated);
    for p1 in [0x01, 0x02, 0x01] {
        let right = Template::of(random, p1, true).bytes;
        let supply = [&[YES], &random.bytes(POINT_BYTES)[..]].concat();
        let calls = [
            (
                Request::new(Name::Load, p1, &[&right[..], &BROKEN].concat()),
                WRONG_DATA,
                right.len(),
            ),
            (Request::new(Name::Load, p1, &[0x80, 0x00]), WRONG_DATA, NO_FAULT),
            (Request::new(Name::Load, p1, &BROKEN), WRONG_DATA, 0),
            (Request::new(Name::Status, 0x00, &[]), SUCCESS, NO_FAULT),
            (Request::new(Name::Load, p1, &nested(6, &[])), WRONG_DATA, 8),
            (Request::new(Name::Load, p1, &right), SUCCESS, NO_FAULT),
            (Request::new(Name::Load, p1, &right[..1]), WRONG_DATA, 0),
            (Request::new(Name::Load, 0x03, &BROKEN), WRONG_DATA, NO_FAULT),
        ];
        for (request, status, number) in calls {
            let got = send(both, random, &card, &request, &supply);
            if (got.answered.status, got.answered.fault_offset) != (Some(status), number) {
                fail(
                    &format!("in a row it gave {:x?} instead of {number}", got.answered),
                    &request.plain(),
                );
            }
            card = got.next;
        }
    }
}

/// WALK alone: a fault after so many bytes of whole fields, at the top and inside templates.
fn walks(both: &mut Both, random: &mut Random) {
    for before_bytes in [0, 2, 254, 256, 258, 510, 512, 65_534, 65_536, 65_538, 1 << 20] {
        let before = [0x80, 0x00].repeat(before_bytes / 2);
        for (more, refusal, offset) in [
            (BROKEN.to_vec(), MALFORMED, 0),
            (vec![0x80], MALFORMED, 0),
            (nested(3, &BROKEN), MALFORMED, 6),
            (nested(5, &random.bytes(3)), TOO_DEEP, 8),
            (nested(4, &[0x80, 0x00, 0xa1, 0x00]), TOO_DEEP, 10),
            (nested(3, &[0x80, 0x00, 0x80]), MALFORMED, 8),
        ] {
            let input = [&before[..], &more].concat();
            let walked = both.walk(&input);
            if (walked.refusal, walked.count, walked.fault_offset) != (refusal, 0, before_bytes + offset) {
                fail(&format!("WALK after {before_bytes} bytes gave {walked:?}"), &more);
            }
        }
        let walked = both.walk(&before);
        if (walked.refusal, walked.count, walked.fault_offset) != (NOT_REFUSED, before_bytes / 2, 0) {
            fail(&format!("WALK of {before_bytes} bytes gave {walked:?}"), &[]);
        }
    }
}
