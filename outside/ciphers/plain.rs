//! AES-256, CBC and CBC-MAC written plainly from FIPS 197 and SP 800-38A, byte by byte. It shares nothing with the engine: the tables come
//! from the field's rule, the state is the standard's 16 bytes, column after column. A key has 32 bytes, a block 16 bytes; lengths are in bytes.

pub const BLOCK_BYTES: usize = 16;
pub const KEY_BYTES: usize = 32;

const COLUMNS: usize = 4;
const KEY_WORDS: usize = 8;
const ROUNDS: usize = 14;
const SCHEDULE_WORDS: usize = COLUMNS * (ROUNDS + 1);

pub type Block = [u8; BLOCK_BYTES];
pub type Key = [u8; KEY_BYTES];
type Schedule = [[u8; 4]; SCHEDULE_WORDS];

/// XTIMES: twice a byte, modulo x^8 + x^4 + x^3 + x + 1.
fn x_times(b: u8) -> u8 {
    let doubled = b << 1;
    if b & 0x80 != 0 {
        doubled ^ 0x1b
    } else {
        doubled
    }
}

/// The product of two bytes in the field, bit by bit.
pub fn product(a: u8, b: u8) -> u8 {
    let mut sum = 0;
    let mut power = a;
    let mut rest = b;
    for _ in 0..8 {
        if rest & 1 != 0 {
            sum ^= power;
        }
        power = x_times(power);
        rest >>= 1;
    }
    sum
}

/// The inverse of a byte in the field, found by trying; 0 for 0.
fn inverse(b: u8) -> u8 {
    (1..=255).find(|&c| product(b, c) == 1).unwrap_or(0)
}

/// SBOX by its rule (FIPS 197, section 5.1.1).
fn sbox_rule(b: u8) -> u8 {
    let x = inverse(b);
    x ^ x.rotate_left(1) ^ x.rotate_left(2) ^ x.rotate_left(3) ^ x.rotate_left(4) ^ 0x63
}

/// The two tables, made once.
pub struct Aes {
    pub sbox: [u8; 256],
    pub inv_sbox: [u8; 256],
}

impl Aes {
    pub fn new() -> Aes {
        let mut sbox = [0; 256];
        let mut inv_sbox = [0; 256];
        for b in 0..=255u8 {
            let s = sbox_rule(b);
            sbox[b as usize] = s;
            inv_sbox[s as usize] = b;
        }
        Aes { sbox, inv_sbox }
    }

    fn sub_word(&self, w: [u8; 4]) -> [u8; 4] {
        w.map(|b| self.sbox[b as usize])
    }

    /// KEYEXPANSION.
    fn key_expansion(&self, key: &Key) -> Schedule {
        let mut w = [[0; 4]; SCHEDULE_WORDS];
        for (i, word) in key.chunks_exact(4).enumerate() {
            w[i].copy_from_slice(word);
        }
        let mut constant = 1;
        for i in KEY_WORDS..SCHEDULE_WORDS {
            let mut temp = w[i - 1];
            if i % KEY_WORDS == 0 {
                temp.rotate_left(1);
                temp = self.sub_word(temp);
                temp[0] ^= constant;
                constant = x_times(constant);
            } else if i % KEY_WORDS == 4 {
                temp = self.sub_word(temp);
            }
            for j in 0..4 {
                w[i][j] = w[i - KEY_WORDS][j] ^ temp[j];
            }
        }
        w
    }

    /// CIPHER.
    fn cipher(&self, w: &Schedule, block: Block) -> Block {
        let mut state = block;
        add_round_key(&mut state, w, 0);
        for round in 1..ROUNDS {
            substitute(&mut state, &self.sbox);
            shift_rows(&mut state);
            mix_columns(&mut state);
            add_round_key(&mut state, w, round);
        }
        substitute(&mut state, &self.sbox);
        shift_rows(&mut state);
        add_round_key(&mut state, w, ROUNDS);
        state
    }

    /// INVCIPHER.
    fn inv_cipher(&self, w: &Schedule, block: Block) -> Block {
        let mut state = block;
        add_round_key(&mut state, w, ROUNDS);
        for round in (1..ROUNDS).rev() {
            inv_shift_rows(&mut state);
            substitute(&mut state, &self.inv_sbox);
            add_round_key(&mut state, w, round);
            inv_mix_columns(&mut state);
        }
        inv_shift_rows(&mut state);
        substitute(&mut state, &self.inv_sbox);
        add_round_key(&mut state, w, 0);
        state
    }

    /// CBC encryption in place; the buffer has whole blocks.
    pub fn cbc_encrypt(&self, key: &Key, iv: &Block, buf: &mut [u8]) {
        let w = self.key_expansion(key);
        let mut chained = *iv;
        for part in buf.chunks_exact_mut(BLOCK_BYTES) {
            for (c, p) in chained.iter_mut().zip(part.iter()) {
                *c ^= p;
            }
            chained = self.cipher(&w, chained);
            part.copy_from_slice(&chained);
        }
    }

    /// CBC decryption in place; the buffer has whole blocks.
    pub fn cbc_decrypt(&self, key: &Key, iv: &Block, buf: &mut [u8]) {
        let w = self.key_expansion(key);
        let mut chained = *iv;
        for part in buf.chunks_exact_mut(BLOCK_BYTES) {
            let mut block = [0; BLOCK_BYTES];
            block.copy_from_slice(part);
            let deciphered = self.inv_cipher(&w, block);
            for (i, p) in part.iter_mut().enumerate() {
                *p = deciphered[i] ^ chained[i];
            }
            chained = block;
        }
    }

    /// CBC-MAC: the last block of the encryption with an IV of zeros; the text has whole blocks.
    pub fn cbc_mac(&self, key: &Key, text: &[u8]) -> Block {
        let w = self.key_expansion(key);
        let mut chained = [0; BLOCK_BYTES];
        for part in text.chunks_exact(BLOCK_BYTES) {
            for (c, p) in chained.iter_mut().zip(part.iter()) {
                *c ^= p;
            }
            chained = self.cipher(&w, chained);
        }
        chained
    }
}

fn add_round_key(state: &mut Block, w: &Schedule, round: usize) {
    for column in 0..COLUMNS {
        for row in 0..4 {
            state[4 * column + row] ^= w[COLUMNS * round + column][row];
        }
    }
}

fn substitute(state: &mut Block, table: &[u8; 256]) {
    for b in state.iter_mut() {
        *b = table[*b as usize];
    }
}

/// Row r goes r columns to the left.
fn shift_rows(state: &mut Block) {
    let old = *state;
    for column in 0..COLUMNS {
        for row in 0..4 {
            state[4 * column + row] = old[4 * ((column + row) % COLUMNS) + row];
        }
    }
}

/// Row r goes r columns to the right.
fn inv_shift_rows(state: &mut Block) {
    let old = *state;
    for column in 0..COLUMNS {
        for row in 0..4 {
            state[4 * ((column + row) % COLUMNS) + row] = old[4 * column + row];
        }
    }
}

fn mix_columns(state: &mut Block) {
    for column in 0..COLUMNS {
        let a = [
            state[4 * column],
            state[4 * column + 1],
            state[4 * column + 2],
            state[4 * column + 3],
        ];
        for row in 0..4 {
            let (b, c, d) = (a[(row + 1) % 4], a[(row + 2) % 4], a[(row + 3) % 4]);
            state[4 * column + row] = x_times(a[row]) ^ (x_times(b) ^ b) ^ c ^ d;
        }
    }
}

fn inv_mix_columns(state: &mut Block) {
    for column in 0..COLUMNS {
        let a = [
            state[4 * column],
            state[4 * column + 1],
            state[4 * column + 2],
            state[4 * column + 3],
        ];
        for row in 0..4 {
            let (b, c, d) = (a[(row + 1) % 4], a[(row + 2) % 4], a[(row + 3) % 4]);
            state[4 * column + row] = product(a[row], 14) ^ product(b, 11) ^ product(c, 13) ^ product(d, 9);
        }
    }
}
