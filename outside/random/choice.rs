//! Choices of the walks, drawn from the seeded generator.

use super::Random;

/// True this many times in a hundred.
pub fn chance(random: &mut Random, percent: usize) -> bool {
    random.below(100) < percent
}

pub fn pick<T: Copy>(random: &mut Random, from: &[T]) -> T {
    from[random.below(from.len())]
}

pub fn byte(random: &mut Random) -> u8 {
    random.below(256) as u8
}

pub fn array<const N: usize>(random: &mut Random) -> [u8; N] {
    let mut bytes = [0; N];
    random.fill(&mut bytes);
    bytes
}

pub fn digits<const N: usize>(random: &mut Random) -> [u8; N] {
    let mut bytes = [0; N];
    for b in &mut bytes {
        *b = b'0' + random.below(10) as u8;
    }
    bytes
}

/// Random bytes, at least `least` and less than `limit`.
pub fn some_bytes(random: &mut Random, least: usize, limit: usize) -> Vec<u8> {
    let count = least + random.below(limit - least);
    random.bytes(count)
}

/// A copy with some damage: a bit flipped, a byte replaced, the end cut off, bytes put after or between.
pub fn damaged(random: &mut Random, bytes: &[u8]) -> Vec<u8> {
    let mut copy = bytes.to_vec();
    let at = random.below(bytes.len().max(1));
    match random.below(6) {
        0 | 1 if !copy.is_empty() => copy[at] ^= 1 << random.below(8),
        2 if !copy.is_empty() => copy[at] = byte(random),
        3 => copy.truncate(at),
        4 => copy.extend(some_bytes(random, 1, 4)),
        _ => copy.insert(at, byte(random)),
    }
    copy
}
