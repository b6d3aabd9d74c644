//! The ciphers beneath: AES-256 in CBC of the libraries aes_c (the plain engine) and aes_word_c (the engine from tables), beside the byte-wise
//! one and the one by word tables, and the check that the two baselines are AES-256. Lengths are in bytes.

use crate::rounds::{differ, on_moved_stack, turns, Times, BYTE_WISE, LIBRARY, SIDES, TABLES};
use outside::ciphers::plain::{Block, Key, BLOCK_BYTES};
use outside::ciphers::{plain, word_tables};
use outside::ffi::aes_c;
use outside::random::choice::array;
use outside::random::Random;
use std::hint::black_box;
use std::time::Instant;

const CHECKED_MESSAGES: usize = 4000;
const CHECKED_MOST_BLOCKS: usize = 8;

/// AES-256 in CBC on whole blocks, in place. Every call expands its keys, on all sides.
pub trait Cipher {
    fn encrypt(&self, key: &Key, iv: &Block, part: &mut [u8]);
    fn decrypt(&self, key: &Key, iv: &Block, part: &mut [u8]);
    fn mac(&self, key: &Key, text: &[u8]) -> Block;

    /// The MAC by the library's engine from tables; a baseline has one engine.
    fn mac_by_tables(&self, key: &Key, text: &[u8]) -> Block {
        self.mac(key, text)
    }

    /// Encrypts what is after the first block, the head, and answers the MAC over head and ciphertext. A baseline does one after the other, as
    /// its SEAL does; head and ciphertext lie together here, so that it joins nothing.
    fn encrypt_and_mac(&self, inputs: &Inputs, part: &mut [u8]) -> Block {
        self.encrypt(&inputs.key, &inputs.iv, &mut part[BLOCK_BYTES..]);
        self.mac(&inputs.mac_key, part)
    }
}

/// The keys and the IV of all messages of a work.
pub struct Inputs {
    key: Key,
    iv: Block,
    mac_key: Key,
}

struct Library;

impl Cipher for Library {
    fn encrypt(&self, key: &Key, iv: &Block, part: &mut [u8]) {
        assert_eq!(aes_c::cbc_encrypt(key, iv, part), 0);
    }

    fn decrypt(&self, key: &Key, iv: &Block, part: &mut [u8]) {
        assert_eq!(aes_c::cbc_decrypt(key, iv, part), 0);
    }

    fn mac(&self, key: &Key, text: &[u8]) -> Block {
        let mut mac = [0; BLOCK_BYTES];
        assert_eq!(aes_c::cbc_mac(key, text, &mut mac), 0);
        mac
    }

    fn mac_by_tables(&self, key: &Key, text: &[u8]) -> Block {
        let mut mac = [0; BLOCK_BYTES];
        assert_eq!(aes_c::cbc_mac_by_tables(key, text, &mut mac), 0);
        mac
    }

    fn encrypt_and_mac(&self, inputs: &Inputs, part: &mut [u8]) -> Block {
        let Inputs { key, iv, mac_key } = inputs;
        let (head, text) = part.split_at_mut(BLOCK_BYTES);
        let mut mac = [0; BLOCK_BYTES];
        assert_eq!(aes_c::cbc_encrypt_and_mac(key, iv, mac_key, head, text, &mut mac), 0);
        mac
    }
}

impl Cipher for plain::Aes {
    fn encrypt(&self, key: &Key, iv: &Block, part: &mut [u8]) {
        self.cbc_encrypt(key, iv, part);
    }

    fn decrypt(&self, key: &Key, iv: &Block, part: &mut [u8]) {
        self.cbc_decrypt(key, iv, part);
    }

    fn mac(&self, key: &Key, text: &[u8]) -> Block {
        self.cbc_mac(key, text)
    }
}

impl Cipher for word_tables::Aes {
    fn encrypt(&self, key: &Key, iv: &Block, part: &mut [u8]) {
        self.cbc_encrypt(key, iv, part);
    }

    fn decrypt(&self, key: &Key, iv: &Block, part: &mut [u8]) {
        self.cbc_decrypt(key, iv, part);
    }

    fn mac(&self, key: &Key, text: &[u8]) -> Block {
        self.cbc_mac(key, text)
    }
}

/// FIPS 197, C.3.
fn check_vector(side: usize, cipher: &dyn Cipher) {
    let key: Key = std::array::from_fn(|i| i as u8);
    let plaintext: Block = std::array::from_fn(|i| 0x11 * i as u8);
    let ciphertext: Block = [
        0x8e, 0xa2, 0xb7, 0xca, 0x51, 0x67, 0x45, 0xbf, 0xea, 0xfc, 0x49, 0x90, 0x4b, 0x49, 0x60, 0x89,
    ];
    let mut block = plaintext;
    cipher.encrypt(&key, &[0; BLOCK_BYTES], &mut block);
    let encrypted = block;
    cipher.decrypt(&key, &[0; BLOCK_BYTES], &mut block);
    if encrypted != ciphertext || block != plaintext || cipher.mac(&key, &plaintext) != ciphertext {
        differ("FIPS 197, C.3", side, "not the published block");
    }
}

/// Holds the tables to the byte-wise cipher, and both to the standard's example.
pub fn check(random: &mut Random) {
    let (plain, tables) = (plain::Aes::new(), word_tables::Aes::new());
    check_vector(BYTE_WISE, &plain);
    check_vector(TABLES, &tables);
    let mut blocks = 0;
    for _ in 0..CHECKED_MESSAGES {
        let (key, iv) = (array(random), array(random));
        let count = 1 + random.below(CHECKED_MOST_BLOCKS);
        let text = random.bytes(count * BLOCK_BYTES);
        let (mut by_bytes, mut by_tables) = (text.clone(), text.clone());
        plain.cbc_encrypt(&key, &iv, &mut by_bytes);
        tables.cbc_encrypt(&key, &iv, &mut by_tables);
        let (mut bytes_back, mut tables_back) = (text.clone(), text.clone());
        plain.cbc_decrypt(&key, &iv, &mut bytes_back);
        tables.cbc_decrypt(&key, &iv, &mut tables_back);
        let same_macs = plain.cbc_mac(&key, &text) == tables.cbc_mac(&key, &text);
        if by_bytes != by_tables || bytes_back != tables_back || !same_macs {
            differ("the check of the ciphers", TABLES, "another result than the byte-wise cipher's");
        }
        blocks += count;
    }
    println!("Both ciphers give FIPS 197, C.3; the tables give what the byte-wise one gives on {CHECKED_MESSAGES} random keys and {blocks} blocks, both directions and MAC.");
}

#[derive(Clone, Copy, PartialEq, Eq)]
pub enum Operation {
    Encrypt,
    Decrypt,
    Mac,
    /// The library by its engine from tables.
    EncryptAndMac,
    MacByTables,
}

/// The messages of one round lie in one buffer, each of the same length.
pub struct Messages {
    pub message_bytes: usize,
    pub messages: usize,
    pub rounds: usize,
}

impl Messages {
    /// A message and the head before it, where the operation has one.
    fn part_bytes(&self, operation: Operation) -> usize {
        match operation {
            Operation::EncryptAndMac => BLOCK_BYTES + self.message_bytes,
            _ => self.message_bytes,
        }
    }
}

/// A MAC goes into the first block, so that it is compared too.
fn work_on(cipher: &dyn Cipher, operation: Operation, inputs: &Inputs, part: &mut [u8]) {
    let mac = match operation {
        Operation::Encrypt => return cipher.encrypt(&inputs.key, &inputs.iv, part),
        Operation::Decrypt => return cipher.decrypt(&inputs.key, &inputs.iv, part),
        Operation::Mac => cipher.mac(&inputs.key, part),
        Operation::EncryptAndMac => cipher.encrypt_and_mac(inputs, part),
        Operation::MacByTables => cipher.mac_by_tables(&inputs.key, part),
    };
    part[..BLOCK_BYTES].copy_from_slice(&mac);
}

/// Works on every message in each round, each with its own key expansion. The buffer of every side has the same bytes when the clock starts.
pub fn measure(random: &mut Random, messages: &Messages, operation: Operation) -> Times {
    let ciphers: [&dyn Cipher; SIDES] = [&Library, &plain::Aes::new(), &word_tables::Aes::new()];
    let (key, iv, mac_key) = (array(random), array(random), array(random));
    let inputs = Inputs { key, iv, mac_key };
    let part_bytes = messages.part_bytes(operation);
    let content = random.bytes(part_bytes * messages.messages);
    let mut buffers = [content.clone(), content.clone(), content.clone()];
    let mut times = Times::new(messages.messages);
    for round in 0..messages.rounds {
        let mut seconds = [0.0; SIDES];
        for side in turns(round) {
            buffers[side].copy_from_slice(&content);
            let parts = |buffer: &mut [u8]| {
                let start = Instant::now();
                for part in buffer.chunks_exact_mut(part_bytes) {
                    work_on(ciphers[side], operation, &inputs, black_box(part));
                }
                start.elapsed().as_secs_f64()
            };
            seconds[side] = on_moved_stack(round, &mut || parts(&mut buffers[side]));
        }
        for side in [BYTE_WISE, TABLES] {
            if buffers[side] != buffers[LIBRARY] {
                differ("the ciphers alone", side, "another result than the library's");
            }
        }
        times.push(seconds);
    }
    times
}
