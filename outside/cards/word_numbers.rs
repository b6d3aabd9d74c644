//! The word numbers of BIP 39 once more, by windows over the bytes, apart from the model: what GENERATE MNEMONIC has to answer and ENTROPY has
//! to give back. Every ENTROPY of a run is held to this. Lengths are in bytes where no other unit is said.

use crate::may_occur::Operation;
use outside::hashes::plain::sha256;
use outside::model::engine::ENTROPY_ROOM_BYTES;
use outside::model::status::*;
use outside::random::choice::{byte, pick};
use outside::random::Random;

/// P1 of GENERATE MNEMONIC, and how many numbers come of each.
pub const EVERY_CHECKSUM_BITS: [u8; 5] = [4, 5, 6, 7, 8];
pub const EVERY_COUNT: [usize; 5] = [12, 15, 18, 21, 24];
/// The least number that is too large.
pub const TOO_LARGE: u16 = 2048;

pub fn count_of_p1(p1: u8) -> usize {
    3 * usize::from(p1)
}

pub fn entropy_bytes_of_p1(p1: u8) -> usize {
    4 * usize::from(p1)
}

pub fn random_entropy(random: &mut Random, p1: u8) -> Vec<u8> {
    random.bytes(entropy_bytes_of_p1(p1))
}

/// How many numbers these bytes are, where ENTROPY takes so many.
pub fn count_of_words(words: &[u8]) -> Option<usize> {
    EVERY_COUNT.into_iter().find(|count| words.len() == 2 * count)
}

pub fn bytes_of(numbers: &[u16]) -> Vec<u8> {
    numbers.iter().flat_map(|number| number.to_be_bytes()).collect()
}

/// The bytes in pairs, high byte first; a last one alone is left out.
pub fn numbers_of(words: &[u8]) -> Vec<u16> {
    words.chunks_exact(2).map(|pair| u16::from_be_bytes([pair[0], pair[1]])).collect()
}

/// The numbers of this entropy, each from a window of three bytes.
pub fn words_of(entropy: &[u8]) -> Vec<u8> {
    let text = [entropy, &sha256(entropy)[..1], &[0, 0]].concat();
    let number = |index: usize| {
        let (at, bit) = (11 * index / 8, 11 * index % 8);
        let window = text[at..at + 3].iter().fold(0, |sum, &b| sum << 8 | u32::from(b));
        (window >> (13 - bit)) as u16 & 0x7ff
    };
    let numbers: Vec<u16> = (0..entropy.len() / 4 * 3).map(number).collect();
    bytes_of(&numbers)
}

/// What ENTROPY gives for these words in so much room: the entropy, or the refusal.
pub fn entropy_of(words: &[u8], room_bytes: usize) -> Result<Vec<u8>, u8> {
    if room_bytes < ENTROPY_ROOM_BYTES {
        return Err(SHORT_BUFFER);
    }
    let count = count_of_words(words).ok_or(WRONG_COUNT)?;
    let numbers = numbers_of(words);
    if numbers.iter().any(|&number| number >= TOO_LARGE) {
        return Err(NUMBER_TOO_LARGE);
    }
    // Each byte from a window of two numbers.
    let byte = |index: usize| {
        let (at, bit) = (8 * index / 11, 8 * index % 11);
        let window = u32::from(numbers[at]) << 11 | u32::from(numbers[at + 1]);
        (window >> (14 - bit)) as u8
    };
    let entropy: Vec<u8> = (0..count / 3 * 4).map(byte).collect();
    match words_of(&entropy) == words {
        true => Ok(entropy),
        false => Err(WRONG_CHECKSUM),
    }
}

/// Word numbers that were made or read, by their count: what ANSWER said of a supply of entropy, or ENTROPY of so many numbers.
pub type Phrased = (Operation, usize, u8);

/// Each of the five counts with each refusal of GENERATE MNEMONIC past its checks, and of ENTROPY.
pub fn every_phrased() -> Vec<Phrased> {
    let generated = [NOT_REFUSED, WRONG_SUPPLY].map(|refusal| (Operation::Answer, refusal));
    let reversed = [NOT_REFUSED, SHORT_BUFFER, NUMBER_TOO_LARGE, WRONG_CHECKSUM].map(|refusal| (Operation::Entropy, refusal));
    let rows = generated.into_iter().chain(reversed);
    rows.flat_map(|(operation, refusal)| EVERY_COUNT.map(|count| (operation, count, refusal)))
        .collect()
}

/// Right word numbers of random entropy.
pub fn random_words(random: &mut Random) -> Vec<u8> {
    let p1 = pick(random, &EVERY_CHECKSUM_BITS);
    words_of(&random_entropy(random, p1))
}

/// Word numbers that are mostly wrong: another number in a place, a bit of one changed, two of them exchanged, one left out or doubled, any
/// bytes of a right length, or random numbers.
pub fn wrong_words(random: &mut Random) -> Vec<u8> {
    let words = random_words(random);
    let mut numbers = numbers_of(&words);
    let (at, other) = (random.below(numbers.len()), random.below(numbers.len()));
    match random.below(8) {
        0 => numbers[at] = pick(random, &[TOO_LARGE, TOO_LARGE - 1, u16::MAX, 0]),
        1 | 2 => numbers[at] ^= 1 << random.below(16),
        3 => numbers.swap(at, other),
        4 => drop(numbers.remove(at)),
        5 => numbers.insert(at, numbers[other]),
        6 => return random.bytes(words.len()),
        _ => numbers
            .iter_mut()
            .for_each(|number| *number = random.below(usize::from(TOO_LARGE)) as u16),
    }
    let mut words = bytes_of(&numbers);
    match random.below(16) {
        0 => words.push(byte(random)),
        1 => drop(words.pop()),
        _ => {}
    }
    words
}
