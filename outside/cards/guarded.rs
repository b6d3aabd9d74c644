//! Bytes that the library is lent, between guard bytes that no call may change. Lengths are in bytes.

use outside::random::Random;

/// Bytes on each side of what the library may write, which no call may change.
const GUARD_BYTES: usize = 64;
const GUARD: u8 = 0xa5;
const ALIGNMENTS: usize = 16;

/// Such bytes, at any alignment.
pub struct Guarded {
    pub bytes: Vec<u8>,
    start: usize,
    length: usize,
}

impl Guarded {
    pub fn new(random: &mut Random, content: &[u8]) -> Guarded {
        let start = GUARD_BYTES + random.below(ALIGNMENTS);
        let length = content.len();
        let mut bytes = vec![GUARD; start + length + GUARD_BYTES];
        bytes[start..start + length].copy_from_slice(content);
        Guarded { bytes, start, length }
    }

    pub fn slice(&mut self) -> &mut [u8] {
        &mut self.bytes[self.start..self.start + self.length]
    }

    pub fn content(&self) -> &[u8] {
        &self.bytes[self.start..self.start + self.length]
    }

    pub fn array<const N: usize>(&self) -> &[u8; N] {
        self.content().try_into().expect("N bytes")
    }

    pub fn is_guarded(&self) -> bool {
        let end = self.start + self.length;
        self.bytes[..self.start].iter().chain(&self.bytes[end..]).all(|&b| b == GUARD)
    }
}
