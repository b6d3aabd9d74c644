//! Templates (RULES 9): one-byte tags, WALK, the writing of fields, and the signature's DER integers. Lengths are in bytes.

use super::status::{MALFORMED, TOO_DEEP};

/// Templates are read to this depth, a top one being at depth 1.
const MAX_DEPTH: usize = 4;
const TEMPLATE_BIT: u8 = 0x20;
const LONG_LENGTH: u8 = 0x81;

/// A field's tag and content, and what comes after it.
pub struct Field<'a> {
    pub tag: u8,
    pub content: &'a [u8],
    pub rest: &'a [u8],
}

/// The first field of these bytes, if its tag and length can be read and it ends within them.
pub fn first_field(bytes: &[u8]) -> Option<Field<'_>> {
    let (&tag, after_tag) = bytes.split_first()?;
    let (&first, after_first) = after_tag.split_first()?;
    let (length, body) = match first {
        0..=0x7f => (first, after_first),
        LONG_LENGTH => {
            let (&second, after_second) = after_first.split_first()?;
            if second <= 0x7f {
                return None;
            }
            (second, after_second)
        }
        _ => return None,
    };
    let (content, rest) = body.split_at_checked(length as usize)?;
    Some(Field { tag, content, rest })
}

/// Why WALK refuses: the refusal, and how many bytes of the input come before the tag of the faulty field.
#[derive(Clone, Copy, PartialEq, Eq, Debug)]
pub struct Fault {
    pub refusal: u8,
    pub offset: usize,
}

/// WALK: how many fields are no templates, or the fault.
pub fn walk(input: &[u8]) -> Result<usize, Fault> {
    count_fields(input, 0, 1)
}

/// The fields of one sequence, which are at this depth; so many bytes of the input come before it.
fn count_fields(sequence: &[u8], before: usize, depth: usize) -> Result<usize, Fault> {
    let mut count = 0;
    let mut left = sequence;
    while !left.is_empty() {
        let offset = before + sequence.len() - left.len();
        let fault = |refusal| Fault { refusal, offset };
        let field = first_field(left).ok_or(fault(MALFORMED))?;
        if field.tag & TEMPLATE_BIT == 0 {
            count += 1;
        } else if depth > MAX_DEPTH {
            return Err(fault(TOO_DEEP));
        } else {
            let head_bytes = left.len() - field.content.len() - field.rest.len();
            count += count_fields(field.content, offset + head_bytes, depth + 1)?;
        }
        left = field.rest;
    }
    Ok(count)
}

/// A field with this tag and content, at most 255 bytes.
pub fn field(tag: u8, content: &[u8]) -> Vec<u8> {
    let length = content.len() as u8;
    let head = if length <= 0x7f {
        vec![tag, length]
    } else {
        vec![tag, LONG_LENGTH, length]
    };
    [&head, content].concat()
}

/// The shortest unsigned DER integer of a number, high byte first.
pub fn der_integer(number: &[u8]) -> Vec<u8> {
    let mut digits = number;
    while digits.len() > 1 && digits[0] == 0 {
        digits = &digits[1..];
    }
    if digits[0] & 0x80 != 0 {
        field(0x02, &[&[0], digits].concat())
    } else {
        field(0x02, digits)
    }
}
