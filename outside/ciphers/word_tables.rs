//! AES-256, CBC and CBC-MAC by word tables: a column of the state is a word of 32 bits, high byte first, and a round looks each of its bytes
//! up in one of four tables of 256 words, made from the S-box. It is a baseline for the benchmark. A key has 32 bytes, a block 16 bytes; lengths
//! are in bytes.

use super::plain;
pub use super::plain::{Block, Key, BLOCK_BYTES, KEY_BYTES};

const ROUNDS: usize = 14;
const KEY_WORDS: usize = 8;
const SCHEDULE_WORDS: usize = 4 * (ROUNDS + 1);

/// The four columns of a state or of a round key.
type Columns = [u32; 4];
type Schedule = [Columns; ROUNDS + 1];
/// Four tables: each is the one before it, its words rotated by one byte to the right.
type Tables = [[u32; 256]; 4];

pub struct Aes {
    sbox: [u8; 256],
    inv_sbox: [u8; 256],
    /// MIXCOLUMNS of SBOX of a byte in rows 0 to 3.
    forward: Tables,
    /// INVMIXCOLUMNS of INVSBOX of a byte in rows 0 to 3.
    inverse: Tables,
}

/// The tables of a substitution followed by the product with the matrix whose first column this is.
fn tables(substitution: &[u8; 256], matrix: [u8; 4]) -> Tables {
    let mut tables = [[0; 256]; 4];
    for b in 0..256 {
        let word = u32::from_be_bytes(matrix.map(|m| plain::product(substitution[b], m)));
        for (row, table) in tables.iter_mut().enumerate() {
            table[b] = word.rotate_right(8 * row as u32);
        }
    }
    tables
}

/// The byte of a column in this row, as an index.
fn row(column: u32, row: usize) -> usize {
    column.to_be_bytes()[row] as usize
}

/// One column of a round: row 0 from the first column, row 1 from the second, and so on.
fn mixed(tables: &Tables, a: u32, b: u32, c: u32, d: u32) -> u32 {
    tables[0][row(a, 0)] ^ tables[1][row(b, 1)] ^ tables[2][row(c, 2)] ^ tables[3][row(d, 3)]
}

/// One column of the last round, which mixes none.
fn substituted(table: &[u8; 256], a: u32, b: u32, c: u32, d: u32) -> u32 {
    u32::from_be_bytes([table[row(a, 0)], table[row(b, 1)], table[row(c, 2)], table[row(d, 3)]])
}

fn xor(a: Columns, b: Columns) -> Columns {
    [a[0] ^ b[0], a[1] ^ b[1], a[2] ^ b[2], a[3] ^ b[3]]
}

/// The columns of a block of 16 bytes.
fn columns(block: &[u8]) -> Columns {
    let word = |i: usize| u32::from_be_bytes([block[4 * i], block[4 * i + 1], block[4 * i + 2], block[4 * i + 3]]);
    [word(0), word(1), word(2), word(3)]
}

fn put(block: &mut [u8], columns: Columns) {
    for (bytes, column) in block.chunks_exact_mut(4).zip(columns) {
        bytes.copy_from_slice(&column.to_be_bytes());
    }
}

impl Aes {
    pub fn new() -> Aes {
        let plain::Aes { sbox, inv_sbox } = plain::Aes::new();
        Aes {
            sbox,
            inv_sbox,
            forward: tables(&sbox, [2, 1, 1, 3]),
            inverse: tables(&inv_sbox, [14, 9, 13, 11]),
        }
    }

    /// KEYEXPANSION.
    fn key_expansion(&self, key: &Key) -> Schedule {
        let mut w = [0; SCHEDULE_WORDS];
        for (word, bytes) in w.iter_mut().zip(key.chunks_exact(4)) {
            *word = u32::from_be_bytes([bytes[0], bytes[1], bytes[2], bytes[3]]);
        }
        let mut constant = 1;
        for i in KEY_WORDS..SCHEDULE_WORDS {
            let last = w[i - 1];
            let turned = last.rotate_left(8);
            w[i] = w[i - KEY_WORDS]
                ^ match i % KEY_WORDS {
                    0 => substituted(&self.sbox, turned, turned, turned, turned) ^ constant << 24,
                    4 => substituted(&self.sbox, last, last, last, last),
                    _ => last,
                };
            if i % KEY_WORDS == 0 {
                constant <<= 1;
            }
        }
        let mut schedule = [[0; 4]; ROUNDS + 1];
        for (round_key, words) in schedule.iter_mut().zip(w.chunks_exact(4)) {
            round_key.copy_from_slice(words);
        }
        schedule
    }

    /// The schedule of the equivalent inverse cipher (FIPS 197, section 5.3.5): last round key first, INVMIXCOLUMNS of those between.
    fn inv_key_expansion(&self, key: &Key) -> Schedule {
        let mut schedule = self.key_expansion(key);
        schedule.reverse();
        for round_key in &mut schedule[1..ROUNDS] {
            for column in round_key {
                let word = substituted(&self.sbox, *column, *column, *column, *column);
                *column = mixed(&self.inverse, word, word, word, word);
            }
        }
        schedule
    }

    /// CIPHER.
    fn cipher(&self, schedule: &Schedule, block: Columns) -> Columns {
        let mut s = xor(block, schedule[0]);
        for round_key in &schedule[1..ROUNDS] {
            let [a, b, c, d] = s;
            let t = &self.forward;
            s = xor(
                [
                    mixed(t, a, b, c, d),
                    mixed(t, b, c, d, a),
                    mixed(t, c, d, a, b),
                    mixed(t, d, a, b, c),
                ],
                *round_key,
            );
        }
        let [a, b, c, d] = s;
        let last = |a, b, c, d| substituted(&self.sbox, a, b, c, d);
        xor(
            [last(a, b, c, d), last(b, c, d, a), last(c, d, a, b), last(d, a, b, c)],
            schedule[ROUNDS],
        )
    }

    /// EQINVCIPHER: row r comes from r columns to the left.
    fn inv_cipher(&self, schedule: &Schedule, block: Columns) -> Columns {
        let mut s = xor(block, schedule[0]);
        for round_key in &schedule[1..ROUNDS] {
            let [a, b, c, d] = s;
            let t = &self.inverse;
            s = xor(
                [
                    mixed(t, a, d, c, b),
                    mixed(t, b, a, d, c),
                    mixed(t, c, b, a, d),
                    mixed(t, d, c, b, a),
                ],
                *round_key,
            );
        }
        let [a, b, c, d] = s;
        let last = |a, b, c, d| substituted(&self.inv_sbox, a, b, c, d);
        xor(
            [last(a, d, c, b), last(b, a, d, c), last(c, b, a, d), last(d, c, b, a)],
            schedule[ROUNDS],
        )
    }

    /// CBC encryption in place; the buffer has whole blocks.
    pub fn cbc_encrypt(&self, key: &Key, iv: &Block, buf: &mut [u8]) {
        let schedule = self.key_expansion(key);
        let mut chained = columns(iv);
        for part in buf.chunks_exact_mut(BLOCK_BYTES) {
            chained = self.cipher(&schedule, xor(chained, columns(part)));
            put(part, chained);
        }
    }

    /// CBC decryption in place; the buffer has whole blocks.
    pub fn cbc_decrypt(&self, key: &Key, iv: &Block, buf: &mut [u8]) {
        let schedule = self.inv_key_expansion(key);
        let mut chained = columns(iv);
        for part in buf.chunks_exact_mut(BLOCK_BYTES) {
            let block = columns(part);
            put(part, xor(self.inv_cipher(&schedule, block), chained));
            chained = block;
        }
    }

    /// CBC-MAC: the last block of the encryption with an IV of zeros; the text has whole blocks.
    pub fn cbc_mac(&self, key: &Key, text: &[u8]) -> Block {
        let schedule = self.key_expansion(key);
        let mut chained = [0; 4];
        for part in text.chunks_exact(BLOCK_BYTES) {
            chained = self.cipher(&schedule, xor(chained, columns(part)));
        }
        let mut mac = [0; BLOCK_BYTES];
        put(&mut mac, chained);
        mac
    }
}
