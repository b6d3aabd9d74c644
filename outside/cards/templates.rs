//! Inputs for WALK and templates for LOAD: right ones, ones with a length in another form, too deep ones, and damaged ones. Lengths are in
//! bytes.

use outside::model::template::field;
use outside::random::choice::{byte, chance, damaged, pick, some_bytes};
use outside::random::Random;

const TEMPLATE_BIT: u8 = 0x20;
const MOST_CONTENT_BYTES: usize = 255;
/// The longest content whose length fits one byte.
const MOST_SHORT_BYTES: usize = 127;

/// A field whose content has at most 255 bytes: a template holding others down to some depth, or another field.
fn random_field(random: &mut Random, depth: usize) -> Vec<u8> {
    let tag = byte(random);
    if depth > 0 && chance(random, 75) {
        let mut content = random_fields(random, depth - 1);
        content.truncate(MOST_CONTENT_BYTES);
        return field(tag | TEMPLATE_BIT, &content);
    }
    let content = match random.below(8) {
        0 => random.bytes(MOST_SHORT_BYTES),
        1 => random.bytes(MOST_SHORT_BYTES + 1),
        2 => some_bytes(random, 0, MOST_CONTENT_BYTES + 1),
        _ => some_bytes(random, 0, 8),
    };
    match random.below(25) {
        0 => long_form(tag & !TEMPLATE_BIT, &content, 1),
        _ => field(tag & !TEMPLATE_BIT, &content),
    }
}

fn random_fields(random: &mut Random, depth: usize) -> Vec<u8> {
    let mut fields = Vec::new();
    for _ in 0..random.below(4) {
        fields.extend(random_field(random, depth));
    }
    fields
}

/// Templates within each other, this many, around a last content.
fn nested(random: &mut Random, templates: usize) -> Vec<u8> {
    let mut input = match random.below(3) {
        0 => Vec::new(),
        1 => field(byte(random) & !TEMPLATE_BIT, &[1, 2, 3]),
        _ => some_bytes(random, 0, 4),
    };
    for _ in 0..templates {
        if chance(random, 30) {
            input.extend(random_field(random, 0));
        }
        input.truncate(MOST_CONTENT_BYTES);
        input = field(byte(random) | TEMPLATE_BIT, &input);
    }
    input
}

/// Many short fields, more than a byte can count, some of them templates of such.
fn many_fields(random: &mut Random) -> Vec<u8> {
    let mut input = Vec::new();
    for _ in 0..random.below(600) {
        let content = some_bytes(random, 0, 3);
        let short = field(byte(random) & !TEMPLATE_BIT, &content);
        let more = random.below(40);
        input.extend(match random.below(20) {
            0 => field(byte(random) | TEMPLATE_BIT, &short.repeat(more)),
            _ => short,
        });
    }
    input
}

pub fn walk_input(random: &mut Random) -> Vec<u8> {
    let depth = 1 + random.below(6);
    match random.below(9) {
        0 => some_bytes(random, 0, 12),
        1 | 2 => nested(random, depth),
        3 => {
            let input = nested(random, depth);
            damaged(random, &input)
        }
        4 => {
            let input = random_fields(random, depth);
            damaged(random, &input)
        }
        5 => many_fields(random),
        6 => strange_length(random),
        _ => random_fields(random, depth),
    }
}

/// A field with its length in one or two bytes of its own after 81 or 82. The rules allow 81 alone, and that from 128 bytes on (RULES 9.1).
fn long_form(tag: u8, content: &[u8], length_bytes: u8) -> Vec<u8> {
    let length = (content.len() as u16).to_be_bytes();
    let length = if length_bytes == 1 { &length[1..] } else { &length[..] };
    [&[tag, 0x80 + length_bytes], length, content].concat()
}

/// One field around 127 bytes with its length in one of the longer forms, or in a single byte that tells more than 127.
fn strange_length(random: &mut Random) -> Vec<u8> {
    let tag = byte(random) & !TEMPLATE_BIT;
    if chance(random, 40) {
        let length = pick(random, &[0x7f, 0x80, 0x82, 0x83, 0xff]);
        return [&[tag, length], &random.bytes(length as usize)[..]].concat();
    }
    let bytes = MOST_SHORT_BYTES - 1 + random.below(4);
    let content = random.bytes(bytes);
    long_form(tag, &content, pick(random, &[1, 1, 2]))
}

/// The key template of LOAD for P1 01 or 02.
pub fn key_template(random: &mut Random, extended: bool) -> Vec<u8> {
    field(0xa1, &key_fields(random, extended).concat())
}

fn key_fields(random: &mut Random, extended: bool) -> Vec<Vec<u8>> {
    let mut fields = Vec::new();
    if chance(random, 50) {
        fields.push(field(0x80, &random.bytes(65)));
    }
    fields.push(field(0x81, &random.bytes(32)));
    if extended {
        fields.push(field(0x82, &random.bytes(32)));
    }
    fields
}

/// A key template that is wrong in one way, mostly.
pub fn wrong_key_template(random: &mut Random, extended: bool) -> Vec<u8> {
    let mut fields = key_fields(random, extended);
    let at = random.below(fields.len());
    let right = field(0xa1, &fields.concat());
    match random.below(10) {
        0 => return long_form(0xa1, &fields.concat(), 1),
        1 => return long_form(0xa1, &fields.concat(), 2),
        2 => return [&right[..], &some_bytes(random, 1, 4)].concat(),
        3 => return damaged(random, &right),
        4 => fields.reverse(),
        5 => fields[at] = field(fields[at][0], &some_bytes(random, 0, 70)),
        6 => fields[at] = long_form(fields[at][0], &random.bytes(32), 1),
        7 => fields.push(field(pick(random, &[0x80, 0x81, 0x82, 0x83]), &random.bytes(32))),
        8 => drop(fields.remove(at)),
        _ => fields.insert(at, fields[at].clone()),
    }
    field(0xa1, &fields.concat())
}
