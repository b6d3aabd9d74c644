//! Keypair templates for LOAD, with the place of each field, and templates in templates, written here apart from the model. Lengths and
//! offsets are in bytes.

use outside::model::card::POINT_BYTES;
use outside::random::Random;

/// The most content whose length one byte tells.
pub const MOST_SHORT_BYTES: usize = 127;
/// A field that WALK refuses wherever it stands: its length is in no form that is read.
pub const BROKEN: [u8; 2] = [0x80, 0xff];

/// A field with its length in the form that its content needs.
pub fn field(tag: u8, content: &[u8]) -> Vec<u8> {
    match content.len() {
        bytes @ 0..=MOST_SHORT_BYTES => [&[tag, bytes as u8], content].concat(),
        bytes => [&[tag, 0x81, bytes as u8], content].concat(),
    }
}

/// A keypair template that LOAD takes, and the offset of each field's tag in it, A1's first.
pub struct Template {
    pub p1: u8,
    pub bytes: Vec<u8>,
    pub tags: Vec<usize>,
}

impl Template {
    pub fn of(random: &mut Random, p1: u8, with_public_key: bool) -> Template {
        let mut fields = vec![(0x81, 32)];
        if with_public_key {
            fields.insert(0, (0x80, POINT_BYTES));
        }
        if p1 == 0x02 {
            fields.push((0x82, 32));
        }
        let fields: Vec<Vec<u8>> = fields.into_iter().map(|(tag, bytes)| field(tag, &random.bytes(bytes))).collect();
        let bytes = field(0xa1, &fields.concat());
        let mut tags = vec![0];
        let mut at = bytes.len() - fields.concat().len();
        for field in fields {
            tags.push(at);
            at += field.len();
        }
        Template { p1, bytes, tags }
    }

    /// Where the heads are: tags and lengths, 81 in front of a length included.
    pub fn head_bytes(&self) -> Vec<usize> {
        let value = |tag: usize| tag + if self.bytes[tag + 1] == 0x81 { 3 } else { 2 };
        self.tags.iter().flat_map(|&tag| tag..value(tag)).collect()
    }
}

/// So many templates, one in the other, around these bytes.
pub fn nested(templates: usize, inside: &[u8]) -> Vec<u8> {
    (0..templates).fold(inside.to_vec(), |inside, _| field(0xa1, &inside))
}
