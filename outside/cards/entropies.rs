//! Word numbers of recovery phrases, by the terminal: ENTROPY with every length, room, number and bit, with every checksum, and which cause to
//! refuse comes first. What is wanted is told here and in `word_numbers.rs`, apart from the model. Lengths are in bytes where no other unit
//! is said.

use crate::both::{hex, Both};
use crate::word_numbers::*;
use outside::model::engine::ENTROPY_ROOM_BYTES;
use outside::model::status::*;
use outside::random::Random;

/// Words and rooms are tried with every length up to these.
const MOST_WORDS_BYTES: usize = 100;
const MOST_ROOM_BYTES: usize = 2 * ENTROPY_ROOM_BYTES;
const NUMBER_BITS: usize = 11;
/// How many phrases of each count have each of their bits changed.
const PHRASES: usize = 4;

pub fn run(both: &mut Both, seed: u64) {
    both.walk = "the entropies".to_string();
    let mut random = Random::new(seed.rotate_left(59));
    let random = &mut random;
    lengths(both, random);
    rooms(both, random);
    for p1 in EVERY_CHECKSUM_BITS {
        numbers(both, random, p1);
        bits(both, random, p1);
        checksums(both, random, p1);
    }
}

fn require(holds: bool, what: &str, words: &[u8]) {
    if !holds {
        println!("THE ENTROPIES: {what}: {}", hex(words));
        std::process::exit(1);
    }
}

/// ENTROPY of these words in so much room: the entropy from the buffer's start, or the refusal; bytes past it stay, and all of them under a
/// refusal.
pub fn reads(both: &mut Both, random: &mut Random, words: &[u8], room_bytes: usize, wanted: Result<Vec<u8>, u8>) {
    let before = random.bytes(room_bytes);
    let mut after = before.clone();
    let told = both.entropy(words, &mut after);
    let (refusal, entropy) = match &wanted {
        Ok(entropy) => (NOT_REFUSED, &entropy[..]),
        Err(refusal) => (*refusal, &[][..]),
    };
    let is_right = (told.refusal, told.count) == (refusal, entropy.len()) && after == [entropy, &before[entropy.len()..]].concat();
    let what = format!(
        "ENTROPY in {room_bytes} bytes gave {told:?} and {} instead of {wanted:x?}",
        hex(&after)
    );
    require(is_right, &what, words);
}

/// Words of each length, of right numbers cut or put together, of large numbers and of any bytes: 24, 30, 36, 42 and 48 bytes alone are not
/// refused with 9, which comes before 10 and 11 and after 2.
fn lengths(both: &mut Both, random: &mut Random) {
    for bytes in 0..=MOST_WORDS_BYTES {
        let right: Vec<u8> = (0..5).flat_map(|_| random_words(random)).collect();
        for words in [right[..bytes].to_vec(), vec![0x00; bytes], vec![0xff; bytes], random.bytes(bytes)] {
            let wanted = match bytes {
                24 | 30 | 36 | 42 | 48 => entropy_of(&words, ENTROPY_ROOM_BYTES),
                _ => Err(WRONG_COUNT),
            };
            reads(both, random, &words, ENTROPY_ROOM_BYTES, wanted);
            reads(both, random, &words, ENTROPY_ROOM_BYTES - 1, Err(SHORT_BUFFER));
        }
    }
}

/// Rooms of each length for right words and for each cause to refuse: under 32 bytes it is 2, whatever the count and all else is.
fn rooms(both: &mut Both, random: &mut Random) {
    for (p1, room_bytes) in EVERY_CHECKSUM_BITS
        .iter()
        .flat_map(|&p1| (0..=MOST_ROOM_BYTES).map(move |bytes| (p1, bytes)))
    {
        let entropy = random_entropy(random, p1);
        let words = words_of(&entropy);
        let last = words.len() - 1;
        let (mut other, mut large) = (words.clone(), words.clone());
        other[last] ^= 0x01;
        large[last - 1] |= 0x08;
        for (words, wanted) in [
            (&words[..], Ok(entropy)),
            (&other, Err(WRONG_CHECKSUM)),
            (&large, Err(NUMBER_TOO_LARGE)),
            (&large[..last], Err(WRONG_COUNT)),
            (&[], Err(WRONG_COUNT)),
        ] {
            let wanted = if room_bytes < 32 { Err(SHORT_BUFFER) } else { wanted };
            reads(both, random, words, room_bytes, wanted);
        }
    }
}

/// Each number in turn too large, beside a right checksum and beside a wrong one: 10 comes before 11. With a number more or less it is 9.
fn numbers(both: &mut Both, random: &mut Random, p1: u8) {
    let right = numbers_of(&words_of(&random_entropy(random, p1)));
    for at in 0..right.len() {
        let low = right[at];
        for large in [2048, u16::MAX, low | 0x0800, low | 0x8000, low | 0xf800, 2049, 4095, 4096] {
            let mut numbers = right.clone();
            numbers[at] = large;
            reads(both, random, &bytes_of(&numbers), ENTROPY_ROOM_BYTES, Err(NUMBER_TOO_LARGE));
            let another = (at + 1 + random.below(right.len() - 1)) % right.len();
            numbers[another] ^= 1 << random.below(NUMBER_BITS);
            reads(both, random, &bytes_of(&numbers), ENTROPY_ROOM_BYTES, Err(NUMBER_TOO_LARGE));
            let more = [&numbers[..], &[0]].concat();
            for numbers in [&more[..], &numbers[1..]] {
                reads(both, random, &bytes_of(numbers), ENTROPY_ROOM_BYTES, Err(WRONG_COUNT));
            }
        }
        let mut numbers = right.clone();
        numbers[at] = 2047;
        let words = bytes_of(&numbers);
        let wanted = entropy_of(&words, ENTROPY_ROOM_BYTES);
        require(wanted != Err(NUMBER_TOO_LARGE), "2047 was taken for too large", &words);
        reads(both, random, &words, ENTROPY_ROOM_BYTES, wanted);
    }
}

/// Each bit of right words changed: one above the eleventh is 10; one of the checksum is 11; one of the entropy nearly always is.
fn bits(both: &mut Both, random: &mut Random, p1: u8) {
    for _ in 0..PHRASES {
        let words = words_of(&random_entropy(random, p1));
        let last = words.len() / 2 - 1;
        for (at, bit) in (0..=last).flat_map(|at| (0..16).map(move |bit| (at, bit))) {
            let mut numbers = numbers_of(&words);
            numbers[at] ^= 1 << bit;
            let changed = bytes_of(&numbers);
            let wanted = match bit {
                NUMBER_BITS.. => Err(NUMBER_TOO_LARGE),
                _ if at == last && bit < usize::from(p1) => Err(WRONG_CHECKSUM),
                _ => entropy_of(&changed, ENTROPY_ROOM_BYTES),
            };
            reads(both, random, &changed, ENTROPY_ROOM_BYTES, wanted);
        }
    }
}

/// Of all checksums after one entropy, one is right.
fn checksums(both: &mut Both, random: &mut Random, p1: u8) {
    let entropy = random_entropy(random, p1);
    let right = numbers_of(&words_of(&entropy));
    let last = right.len() - 1;
    for checksum in 0..1u16 << p1 {
        let mut numbers = right.clone();
        numbers[last] = right[last] >> p1 << p1 | checksum;
        let wanted = match numbers == right {
            true => Ok(entropy.clone()),
            false => Err(WRONG_CHECKSUM),
        };
        reads(both, random, &bytes_of(&numbers), ENTROPY_ROOM_BYTES, wanted);
    }
}
