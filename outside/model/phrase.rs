//! The word numbers of a recovery phrase (RULES 6.22 and 7.12), as BIP 39 makes them: the bits of the entropy and the first bits of its
//! SHA-256 after them, cut into numbers of 11 bits. Numbers are told in 2 bytes each, high byte first; lengths are in bytes where no other
//! unit is said.

use super::hash::sha256;
use super::status::{NUMBER_TOO_LARGE, WRONG_CHECKSUM, WRONG_COUNT};

/// What P1 can be: how many bits the checksum has.
pub const CHECKSUM_BITS: [u8; 5] = [4, 5, 6, 7, 8];
/// For each bit of the checksum there are 4 bytes of entropy and 3 numbers.
pub const ENTROPY_BYTES_PER_CHECKSUM_BIT: usize = 4;
pub const NUMBERS_PER_CHECKSUM_BIT: usize = 3;
pub const NUMBER_BYTES: usize = 2;
pub const MOST_NUMBER: u16 = 2047;
const NUMBER_BITS: usize = 11;
const BYTE_BITS: usize = 8;

/// The last so many bits of a number, high bit first.
fn last_bits(number: u16, bits: usize) -> impl Iterator<Item = bool> {
    (0..bits).rev().map(move |place| number >> place & 1 == 1)
}

fn bits_of(bytes: &[u8]) -> Vec<bool> {
    bytes.iter().flat_map(|&byte| last_bits(byte.into(), BYTE_BITS)).collect()
}

/// The number of these bits, high bit first, at most 16 of them.
fn number_of(bits: &[bool]) -> u16 {
    bits.iter().fold(0, |number, &bit| 2 * number + u16::from(bit))
}

/// The entropy's bits and the checksum: a bit for each 4 bytes, from the hash's start.
fn with_checksum(entropy: &[u8]) -> Vec<bool> {
    let checksum_bits = entropy.len() / ENTROPY_BYTES_PER_CHECKSUM_BIT;
    let hash = bits_of(&sha256(entropy));
    [&bits_of(entropy)[..], &hash[..checksum_bits]].concat()
}

/// The word numbers of this entropy of 16, 20, 24, 28 or 32 bytes.
pub fn words_of(entropy: &[u8]) -> Vec<u8> {
    let bits = with_checksum(entropy);
    bits.chunks(NUMBER_BITS).flat_map(|bits| number_of(bits).to_be_bytes()).collect()
}

/// Whether so many bytes are 12, 15, 18, 21 or 24 numbers.
fn is_words_length(bytes: usize) -> bool {
    CHECKSUM_BITS
        .iter()
        .any(|&bits| bytes == usize::from(bits) * NUMBERS_PER_CHECKSUM_BIT * NUMBER_BYTES)
}

/// The entropy of these word numbers, or the refusal: by their count, then by each of them, then by the checksum.
pub fn entropy_of(words: &[u8]) -> Result<Vec<u8>, u8> {
    if !is_words_length(words.len()) {
        return Err(WRONG_COUNT);
    }
    let numbers: Vec<u16> = words.chunks(NUMBER_BYTES).map(|bytes| number_of(&bits_of(bytes))).collect();
    if numbers.iter().any(|&number| number > MOST_NUMBER) {
        return Err(NUMBER_TOO_LARGE);
    }
    let bits: Vec<bool> = numbers.iter().flat_map(|&number| last_bits(number, NUMBER_BITS)).collect();
    let checksum_bits = numbers.len() / NUMBERS_PER_CHECKSUM_BIT;
    let entropy_bits = &bits[..bits.len() - checksum_bits];
    let entropy: Vec<u8> = entropy_bits.chunks(BYTE_BITS).map(|bits| number_of(bits) as u8).collect();
    if with_checksum(&entropy) != bits {
        return Err(WRONG_CHECKSUM);
    }
    Ok(entropy)
}
