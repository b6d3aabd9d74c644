//! The published vectors of AES-256 (crates/aes_vectors/data: NIST's known-answer files, FIPS 197 C.3, SP 800-38A F.2.5 and F.2.6) by the plain
//! implementation and by both engines, of aes_c and aes_word_c. How many entries each file has is what the proved program aes_vectors prints. Lengths
//! are in bytes.

use crate::calls::bytes_of;
use crate::{expect, Done};
use outside::ciphers::plain::{Aes, Block, Key, BLOCK_BYTES, KEY_BYTES};
use outside::ffi::aes_c;
use outside::random::choice::array;
use outside::random::Random;

macro_rules! data {
    ($($name:literal),*) => {
        [$(($name, include_str!(concat!("../../crates/aes_vectors/data/", $name)))),*]
    };
}

const FILES: [(&str, &str); 11] = data![
    "FIPS197-C3.rsp",
    "SP800-38A-F25.rsp",
    "SP800-38A-F26.rsp",
    "ECBGFSbox256.rsp",
    "ECBKeySbox256.rsp",
    "ECBVarKey256.rsp",
    "ECBVarTxt256.rsp",
    "CBCGFSbox256.rsp",
    "CBCKeySbox256.rsp",
    "CBCVarKey256.rsp",
    "CBCVarTxt256.rsp"
];
/// What the proved program prints: a line for each file, with its entries.
const PRINTED: &str = include_str!("../../crates/aes_vectors/stdout");
const F25: &str = "SP800-38A-F25.rsp";
const SECTIONS: [&str; 2] = ["[ENCRYPT]", "[DECRYPT]"];

/// An entry of a file. ECB of one block, which has no IV, is CBC with an IV of zeros.
#[derive(Default)]
pub struct Entry {
    file: &'static str,
    section: &'static str,
    number: usize,
    key: Vec<u8>,
    iv: Vec<u8>,
    pub plaintext: Vec<u8>,
    pub ciphertext: Vec<u8>,
}

impl Entry {
    pub fn key(&self) -> &Key {
        self.key[..].try_into().expect("a key of 32 bytes")
    }

    pub fn iv(&self) -> &Block {
        self.iv[..].try_into().expect("an IV of 16 bytes")
    }

    fn name(&self) -> String {
        format!("{} {} {}", self.file, self.section, self.number)
    }

    /// Takes a field; false where it is none of an entry, or is there already.
    fn take(&mut self, name: &str, value: &str) -> bool {
        let place = match name {
            "KEY" => &mut self.key,
            "IV" => &mut self.iv,
            "PLAINTEXT" => &mut self.plaintext,
            "CIPHERTEXT" => &mut self.ciphertext,
            _ => return false,
        };
        let first = place.is_empty();
        *place = bytes_of(value).unwrap_or_default();
        first && !place.is_empty()
    }

    fn is_whole(&self) -> bool {
        let bytes = self.plaintext.len();
        let of_blocks = bytes > 0 && bytes % BLOCK_BYTES == 0 && self.ciphertext.len() == bytes;
        SECTIONS.contains(&self.section) && self.key.len() == KEY_BYTES && self.iv.len() == BLOCK_BYTES && of_blocks
    }
}

/// Ends the run where a fact about a file does not hold.
fn expect_of(holds: bool, file: &str, what: &str) {
    if !holds {
        expect(false, 0, &format!("{file}: {what}"));
    }
}

/// The entries of a file, in order.
fn entries_of(file: &'static str, text: &'static str) -> Vec<Entry> {
    let mut entries: Vec<Entry> = Vec::new();
    let (mut section, mut number) = ("", 0);
    for line in text.lines().filter(|line| !line.is_empty() && !line.starts_with('#')) {
        if SECTIONS.contains(&line) {
            (section, number) = (line, 0);
            continue;
        }
        let (name, value) = line.split_once(" = ").unwrap_or_default();
        if name == "COUNT" {
            expect_of(value == number.to_string(), file, "the numbers of the entries");
            entries.push(Entry {
                file,
                section,
                number,
                ..Entry::default()
            });
            number += 1;
        } else {
            let is_taken = entries.last_mut().is_some_and(|entry| entry.take(name, value));
            expect_of(is_taken, file, &format!("a line that is not understood: {line}"));
        }
    }
    for entry in &mut entries {
        if entry.iv.is_empty() && entry.plaintext.len() == BLOCK_BYTES {
            entry.iv = vec![0; BLOCK_BYTES];
        }
        expect_of(entry.is_whole(), file, "an entry that is not whole");
    }
    entries
}

/// The words of the line that the proved program prints for a file of these entries.
fn line_of(file: &str, entries: &[Entry]) -> Vec<String> {
    let mut words = vec![file.to_string()];
    for section in SECTIONS {
        let count = entries.iter().filter(|entry| entry.section == section).count();
        words.push(section.to_string());
        match count {
            0 => words.push("none".to_string()),
            _ => words.extend([count.to_string(), "of".to_string(), count.to_string()]),
        }
    }
    words
}

/// All entries; ends the run where a file is missing or has not the entries that the proved program found in it.
pub fn published() -> Vec<Entry> {
    let words = |line: &str| line.split_whitespace().map(str::to_string).collect::<Vec<_>>();
    let mut printed = PRINTED
        .lines()
        .map(words)
        .filter(|words| words.iter().any(|word| word.ends_with(".rsp")));
    let mut all = Vec::new();
    for (file, text) in FILES {
        let entries = entries_of(file, text);
        expect_of(
            printed.next() == Some(line_of(file, &entries)),
            file,
            "not the entries that aes_vectors found",
        );
        all.extend(entries);
    }
    expect_of(
        printed.next().is_none(),
        "crates/aes_vectors/stdout",
        "a file that is not read here",
    );
    let total = format!("{0} of {0} entries passed", all.len());
    expect_of(
        PRINTED.contains(&total),
        "crates/aes_vectors/stdout",
        "another number of entries in all",
    );
    all
}

/// The message of SP 800-38A, F.2.5: four blocks.
pub fn f25(entries: &[Entry]) -> &Entry {
    let found = entries.iter().find(|entry| entry.file == F25);
    found.expect("an entry of F.2.5")
}

/// The plain implementation itself on every entry, both ways.
pub fn check_plain(aes: &Aes, entries: &[Entry]) {
    for entry in entries {
        let mut text = entry.plaintext.clone();
        aes.cbc_encrypt(entry.key(), entry.iv(), &mut text);
        expect_of(text == entry.ciphertext, &entry.name(), "the plain implementation, encryption");
        aes.cbc_decrypt(entry.key(), entry.iv(), &mut text);
        expect_of(text == entry.plaintext, &entry.name(), "the plain implementation, decryption");
    }
}

/// What was done, for the line that is printed at the end.
#[derive(Default)]
pub struct Vectors {
    done: Done,
    entries: usize,
    one_block: usize,
}

impl Vectors {
    /// Every entry of both sections is enciphered by both engines, and deciphered.
    pub fn compare(&mut self, aes: &Aes, random: &mut Random, entries: &[Entry]) {
        for entry in entries {
            self.encrypted(aes, random, entry);
            self.by_macs(random, entry);
            self.entries += 1;
        }
    }

    fn encrypted(&mut self, aes: &Aes, random: &mut Random, entry: &Entry) {
        let (done, case) = (&mut self.done, self.entries);
        let Entry { plaintext, ciphertext, .. } = entry;
        let (key, iv) = (entry.key(), entry.iv());
        let enciphered = done.done(random, case, plaintext, |b| aes_c::cbc_encrypt(key, iv, b));
        expect_of(enciphered == *ciphertext, &entry.name(), "the plain engine, encryption");
        let deciphered = done.done(random, case, ciphertext, |b| aes_c::cbc_decrypt(key, iv, b));
        expect_of(deciphered == *plaintext, &entry.name(), "the library, decryption");

        let (mac_key, head, room): (Key, Block, Block) = (array(random), array(random), array(random));
        let (enciphered, mac) = done.done_with_mac(random, case, plaintext, &room, |buf, mac| {
            aes_c::cbc_encrypt_and_mac(key, iv, &mac_key, &head, buf, mac)
        });
        expect_of(enciphered == *ciphertext, &entry.name(), "the engine from tables, encryption");
        let wanted = aes.cbc_mac(&mac_key, &[&head[..], ciphertext].concat());
        expect_of(mac == wanted, &entry.name(), "the engine from tables, MAC of the ciphertext");
    }

    /// The MAC of the plaintext, the IV added to its first block, is the last block of the ciphertext.
    fn by_macs(&mut self, random: &mut Random, entry: &Entry) {
        let (done, case, key) = (&mut self.done, self.entries, entry.key());
        let mut text = entry.plaintext.clone();
        text.iter_mut().zip(&entry.iv).for_each(|(b, v)| *b ^= v);
        let wanted = &entry.ciphertext[text.len() - BLOCK_BYTES..];
        let room: Block = array(random);
        let mac = done.done(random, case, &room, |b| aes_c::cbc_mac(key, &text, b));
        expect_of(mac == wanted, &entry.name(), "the plain engine, MAC");
        let mac = done.done(random, case, &room, |b| aes_c::cbc_mac_by_tables(key, &text, b));
        expect_of(mac == wanted, &entry.name(), "the engine from tables, MAC");
        if text.len() == BLOCK_BYTES {
            let (other, iv): (Key, Block) = (array(random), array(random));
            let (_, mac) = done.done_with_mac(random, case, &[], &room, |buf, mac| {
                aes_c::cbc_encrypt_and_mac(&other, &iv, key, &text, buf, mac)
            });
            expect_of(mac == wanted, &entry.name(), "the engine from tables, MAC of a head alone");
            self.one_block += 1;
        }
    }

    pub fn print(&self) {
        println!(
            "  {} published entries of {} files, {} of them of one block: {} calls; both engines give their ciphertexts, and deciphering their plaintexts",
            self.entries,
            FILES.len(),
            self.one_block,
            self.done.calls
        );
    }
}
