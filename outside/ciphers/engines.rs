//! Both engines on one block. The plain one, of aes_c, is behind `cbc_encrypt` and `cbc_mac`; the one from tables, of aes_word_c, is behind
//! `cbc_mac_by_tables` and both chains of `cbc_encrypt_and_mac`. Each has to give the block that the plain implementation gives. Lengths are
//! in bytes.

use crate::{expect, Done};
use outside::ciphers::plain::{Aes, Block, Key, BLOCK_BYTES, KEY_BYTES};
use outside::ffi::aes_c;
use outside::random::choice::array;
use outside::random::Random;

const RANDOM_CASES: usize = 100_000;
const ZEROS: Block = [0; BLOCK_BYTES];

/// What was done, for the line that is printed at the end.
#[derive(Default)]
pub struct Engines {
    done: Done,
    cases: usize,
    repeated: usize,
    bits: usize,
    places: usize,
}

/// All zeros but one bit, or all zeros.
fn with_bit<const BYTES: usize>(bit: Option<usize>) -> [u8; BYTES] {
    let mut bytes = [0; BYTES];
    if let Some(bit) = bit {
        bytes[bit / 8] = 1 << (bit % 8);
    }
    bytes
}

/// No bit, then each bit of so many bytes.
fn bits_of(bytes: usize) -> impl Iterator<Item = Option<usize>> {
    std::iter::once(None).chain((0..8 * bytes).map(Some))
}

impl Engines {
    /// One key and block, by both engines.
    fn compare(&mut self, aes: &Aes, random: &mut Random, key: &Key, block: &Block) {
        let mut wanted = *block;
        aes.cbc_encrypt(key, &ZEROS, &mut wanted);
        self.by_plain_engine(random, key, block, &wanted);
        self.by_tables(aes, random, key, block, &wanted);
        self.cases += 1;
    }

    fn by_plain_engine(&mut self, random: &mut Random, key: &Key, block: &Block, wanted: &Block) {
        let (done, case) = (&mut self.done, self.cases);
        let enciphered = done.done(random, case, block, |b| aes_c::cbc_encrypt(key, &ZEROS, b));
        expect_block(&enciphered, wanted, case, key, block, "the plain engine, encryption");
        let room: Block = array(random);
        let mac = done.done(random, case, &room, |b| aes_c::cbc_mac(key, block, b));
        expect_block(&mac, wanted, case, key, block, "the plain engine, MAC");
    }

    /// The block as a MAC's text, as the data of the encryption and as the head of a MAC over nothing more.
    fn by_tables(&mut self, aes: &Aes, random: &mut Random, key: &Key, block: &Block, wanted: &Block) {
        let (done, case) = (&mut self.done, self.cases);
        let room: Block = array(random);
        let mac = done.done(random, case, &room, |b| aes_c::cbc_mac_by_tables(key, block, b));
        expect_block(&mac, wanted, case, key, block, "the engine from tables, MAC");

        let (other, aside): (Key, Block) = (array(random), array(random));
        let (enciphered, mac) = done.done_with_mac(random, case, block, &room, |buf, mac| {
            aes_c::cbc_encrypt_and_mac(key, &ZEROS, &other, &aside, buf, mac)
        });
        expect_block(&enciphered, wanted, case, key, block, "the engine from tables, encryption");
        let joined = [&aside[..], wanted].concat();
        expect_block(
            &mac,
            &aes.cbc_mac(&other, &joined),
            case,
            key,
            block,
            "the engine from tables, MAC of what it encrypted",
        );

        let (left, mac) = done.done_with_mac(random, case, &[], &room, |buf, mac| {
            aes_c::cbc_encrypt_and_mac(&other, &aside, key, block, buf, mac)
        });
        expect(left.is_empty(), case, "an encryption of no bytes");
        expect_block(&mac, wanted, case, key, block, "the engine from tables, MAC of a head alone");
    }

    pub fn random(&mut self, aes: &Aes, random: &mut Random) {
        for _ in 0..RANDOM_CASES {
            let (key, block) = (array(random), array(random));
            self.compare(aes, random, &key, &block);
        }
    }

    /// Keys and blocks of a structure that random ones do not have.
    pub fn structured(&mut self, aes: &Aes, random: &mut Random) {
        let before = self.cases;
        for (k, b) in (0..=255).flat_map(|k| (0..=255).map(move |b| (k, b))) {
            self.compare(aes, random, &[k; KEY_BYTES], &[b; BLOCK_BYTES]);
        }
        self.repeated = self.cases - before;

        let before = self.cases;
        for key_bit in bits_of(KEY_BYTES) {
            for block_bit in bits_of(BLOCK_BYTES) {
                self.compare(aes, random, &with_bit(key_bit), &with_bit(block_bit));
            }
        }
        self.bits = self.cases - before;

        let before = self.cases;
        for place in 0..KEY_BYTES + BLOCK_BYTES {
            self.values_at(aes, random, place);
        }
        self.places = self.cases - before;
    }

    /// Every value of the byte at this place of the key joined to the block, among zeros and among random bytes.
    fn values_at(&mut self, aes: &Aes, random: &mut Random, place: usize) {
        for value in 0..=255 {
            for around in [[0; KEY_BYTES + BLOCK_BYTES], array(random)] {
                let mut bytes = around;
                bytes[place] = value;
                let (key, block) = bytes.split_at(KEY_BYTES);
                let (key, block) = (key.try_into().expect("32 bytes"), block.try_into().expect("16 bytes"));
                self.compare(aes, random, key, block);
            }
        }
    }

    pub fn print(&self) {
        let Engines {
            repeated, bits, places, ..
        } = self;
        let chosen = format!(
            "{RANDOM_CASES} random, {repeated} of repeated bytes, {bits} of single bits, {places} with each byte value at each place"
        );
        println!(
            "  {} keys and blocks ({chosen}): {} calls; both engines give the same block",
            self.cases, self.done.calls
        );
    }
}

/// Ends the run where a block is not the one that is wanted, with the key and the block that it is of.
fn expect_block(found: &[u8], wanted: &Block, case: usize, key: &Key, block: &Block, what: &str) {
    if found != wanted {
        let what = format!("{what}: key {key:02x?}, block {block:02x?}, found {found:02x?}, wanted {wanted:02x?}");
        expect(false, case, &what);
    }
}
