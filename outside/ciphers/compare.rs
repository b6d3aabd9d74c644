//! The program compare: holds the proved libraries aes_c and aes_word_c to the plain implementation on pseudo-random inputs, whole and cut at
//! block borders, their two engines to each other (`engines.rs`, `chains.rs`) and to the published vectors (`vectors.rs`), and every wrong
//! length to its number (`lengths.rs`). With the name of a script it plays that on aes_c and the plain implementation instead (`calls.rs`). The
//! first difference is printed and ends the run with a status that is not 0. Lengths are in bytes.

mod calls;
mod chains;
mod cuts;
mod engines;
mod lengths;
mod vectors;

use chains::Chains;
use cuts::Cuts;
use engines::Engines;
use lengths::Tried;
use outside::ciphers::plain::{Aes, Block, Key, BLOCK_BYTES, KEY_BYTES};
use outside::ffi::aes_c;
use outside::random::Random;
use vectors::{Entry, Vectors};

const SEED: u64 = 0x7265_6164_6c65_7769;
const CASES: usize = 20_000;
const MOST_BLOCKS: usize = 256;
/// Bytes on each side of a buffer, which no call may change.
const GUARD_BYTES: usize = 64;
const GUARD: u8 = 0xa5;

const DONE: u8 = 0;
const WRONG_KEY: u8 = 1;
const WRONG_IV: u8 = 2;
const WRONG_DATA: u8 = 3;
const WRONG_MAC: u8 = 4;

/// What was done, for the line that is printed at the end.
#[derive(Default)]
struct Done {
    calls: usize,
    bytes: usize,
    answers: [usize; 5],
}

/// A buffer between guard bytes, at any alignment.
struct Guarded {
    bytes: Vec<u8>,
    start: usize,
    length: usize,
}

impl Guarded {
    fn new(random: &mut Random, content: &[u8]) -> Guarded {
        let start = GUARD_BYTES + random.below(BLOCK_BYTES);
        let mut bytes = vec![GUARD; start + content.len() + GUARD_BYTES];
        bytes[start..start + content.len()].copy_from_slice(content);
        Guarded {
            bytes,
            start,
            length: content.len(),
        }
    }

    fn slice(&mut self) -> &mut [u8] {
        &mut self.bytes[self.start..self.start + self.length]
    }

    fn is_guarded(&self) -> bool {
        let end = self.start + self.length;
        self.bytes[..self.start].iter().chain(&self.bytes[end..]).all(|&b| b == GUARD)
    }
}

/// Ends the run where a fact does not hold.
fn expect(holds: bool, case: usize, what: &str) {
    if !holds {
        println!("DIFFERENCE in case {case} (seed {SEED:#x}): {what}");
        std::process::exit(1);
    }
}

impl Done {
    /// Calls the library on a guarded copy of `before`; answers its number and the bytes that it left.
    fn call(&mut self, random: &mut Random, case: usize, before: &[u8], call: impl FnOnce(&mut [u8]) -> u8) -> (u8, Vec<u8>) {
        let mut buffer = Guarded::new(random, before);
        let answer = call(buffer.slice());
        expect(buffer.is_guarded(), case, "a byte outside the buffer was changed");
        expect(answer <= WRONG_MAC, case, "the answer is no number of the list");
        self.calls += 1;
        self.bytes += before.len();
        self.answers[answer as usize] += 1;
        (answer, buffer.slice().to_vec())
    }

    /// Calls the library where the lengths are right.
    fn done(&mut self, random: &mut Random, case: usize, before: &[u8], call: impl FnOnce(&mut [u8]) -> u8) -> Vec<u8> {
        let (answer, after) = self.call(random, case, before, call);
        expect(answer == DONE, case, "a call with the right lengths was refused");
        after
    }

    /// Calls the library on guarded copies of a buffer and of the room for a MAC; answers its number and the bytes that it left of both.
    fn call_with_mac(
        &mut self,
        random: &mut Random,
        case: usize,
        before: &[u8],
        room: &[u8],
        call: impl FnOnce(&mut [u8], &mut [u8]) -> u8,
    ) -> (u8, Vec<u8>, Vec<u8>) {
        let mut mac = Guarded::new(random, room);
        let (answer, after) = self.call(random, case, before, |buf| call(buf, mac.slice()));
        expect(mac.is_guarded(), case, "a byte outside the room for the MAC was changed");
        (answer, after, mac.slice().to_vec())
    }

    /// The same where the lengths are right.
    fn done_with_mac(
        &mut self,
        random: &mut Random,
        case: usize,
        before: &[u8],
        room: &[u8],
        call: impl FnOnce(&mut [u8], &mut [u8]) -> u8,
    ) -> (Vec<u8>, Vec<u8>) {
        let (answer, after, mac) = self.call_with_mac(random, case, before, room, call);
        expect(answer == DONE, case, "a call with the right lengths was refused");
        (after, mac)
    }
}

fn key_and_iv(random: &mut Random) -> (Key, Block) {
    let mut key = [0; KEY_BYTES];
    let mut iv = [0; BLOCK_BYTES];
    random.fill(&mut key);
    random.fill(&mut iv);
    (key, iv)
}

/// One key, IV and text: both directions, there and back, and the MAC.
fn compare_case(aes: &Aes, random: &mut Random, done: &mut Done, case: usize) {
    let (key, iv) = key_and_iv(random);
    let most = if case % 8 == 0 { MOST_BLOCKS } else { 16 };
    let text = {
        let blocks = random.below(most + 1);
        random.bytes(blocks * BLOCK_BYTES)
    };

    let mut wanted = text.clone();
    aes.cbc_encrypt(&key, &iv, &mut wanted);
    let enciphered = done.done(random, case, &text, |b| aes_c::cbc_encrypt(&key, &iv, b));
    expect(enciphered == wanted, case, "encryption");

    let back = done.done(random, case, &enciphered, |b| aes_c::cbc_decrypt(&key, &iv, b));
    expect(back == text, case, "decryption of what was enciphered");

    let mut wanted = text.clone();
    aes.cbc_decrypt(&key, &iv, &mut wanted);
    let deciphered = done.done(random, case, &text, |b| aes_c::cbc_decrypt(&key, &iv, b));
    expect(deciphered == wanted, case, "decryption");

    let forth = done.done(random, case, &deciphered, |b| aes_c::cbc_encrypt(&key, &iv, b));
    expect(forth == text, case, "encryption of what was deciphered");

    if !text.is_empty() {
        compare_mac(aes, random, done, case, &key, &text);
        compare_damaged(aes, random, done, case, &key, &iv, &text, &enciphered);
    }
}

fn compare_mac(aes: &Aes, random: &mut Random, done: &mut Done, case: usize, key: &Key, text: &[u8]) {
    let room = random.bytes(BLOCK_BYTES);
    let mac = done.done(random, case, &room, |b| aes_c::cbc_mac(key, text, b));
    expect(mac == aes.cbc_mac(key, text), case, "MAC");
    let zeros = [0; BLOCK_BYTES];
    let enciphered = done.done(random, case, text, |b| aes_c::cbc_encrypt(key, &zeros, b));
    expect(
        mac == enciphered[text.len() - BLOCK_BYTES..],
        case,
        "MAC and the last block of the encryption with an IV of zeros",
    );
}

/// One bit of the ciphertext changed: its block deciphers to something else, the same bit of the next block changes, and no other byte.
#[allow(clippy::too_many_arguments)]
fn compare_damaged(aes: &Aes, random: &mut Random, done: &mut Done, case: usize, key: &Key, iv: &Block, text: &[u8], enciphered: &[u8]) {
    let mut damaged = enciphered.to_vec();
    let at = random.below(damaged.len());
    let bit = 1u8 << random.below(8);
    damaged[at] ^= bit;
    let mut wanted = damaged.clone();
    aes.cbc_decrypt(key, iv, &mut wanted);
    let deciphered = done.done(random, case, &damaged, |b| aes_c::cbc_decrypt(key, iv, b));
    expect(deciphered == wanted, case, "decryption of a damaged text");
    let block = at / BLOCK_BYTES * BLOCK_BYTES;
    let after = block + BLOCK_BYTES;
    expect(deciphered[..block] == text[..block], case, "the blocks before the damaged one");
    expect(deciphered[block..after] != text[block..after], case, "the damaged block");
    let mut rest = text[after..].to_vec();
    if let Some(b) = rest.get_mut(at - block) {
        *b ^= bit;
    }
    expect(deciphered[after..] == rest[..], case, "the blocks after the damaged one");
}

/// The number of the first length that is wrong, in the order of the list.
fn first_wrong(tests: &[(bool, u8)]) -> u8 {
    tests.iter().find(|test| test.0).map_or(DONE, |test| test.1)
}

fn main() {
    let aes = Aes::new();
    let published = vectors::published();
    vectors::check_plain(&aes, &published);
    let arguments: Vec<String> = std::env::args().skip(1).collect();
    match &arguments[..] {
        [] => compare_all(&aes, &published),
        [script] => calls::play(&aes, script),
        _ => {
            eprintln!("argument: none, or the name of a script");
            std::process::exit(2);
        }
    }
}

fn compare_all(aes: &Aes, published: &[Entry]) {
    let mut random = Random::new(SEED);
    let mut vectors = Vectors::default();
    vectors.compare(aes, &mut random, published);
    let mut engines = Engines::default();
    engines.random(aes, &mut random);
    engines.structured(aes, &mut random);
    let mut chains = Chains::default();
    chains.every_length(aes, &mut random);
    chains.short(aes, &mut random);
    let mut cases = Done::default();
    for case in 0..CASES {
        compare_case(aes, &mut random, &mut cases, case);
    }
    let mut cuts = Cuts::default();
    let f25 = vectors::f25(published);
    cuts.published(aes, &mut random, f25.key(), f25.iv(), &f25.plaintext, &f25.ciphertext);
    cuts.random(aes, &mut random);
    let mut tried = Tried::default();
    tried.apart(aes, &mut random);
    tried.in_one(aes, &mut random);

    println!("the library and the plain implementation, seed {SEED:#x}:");
    vectors.print();
    engines.print();
    chains.print();
    println!(
        "  {CASES} cases of 0 to {} bytes: {} calls on {} bytes, each as the plain implementation has it",
        MOST_BLOCKS * BLOCK_BYTES,
        cases.calls,
        cases.bytes
    );
    cuts.print();
    tried.print();
    println!("  no difference, and no byte outside a buffer was changed");
}
