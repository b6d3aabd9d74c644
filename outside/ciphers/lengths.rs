//! Every length around the right ones, for each function of the library: the number is the one of the first length that is wrong, in the order of
//! the list, and a refused call changes nothing. Lengths are in bytes.

use crate::{expect, first_wrong, Done, DONE, WRONG_DATA, WRONG_IV, WRONG_KEY, WRONG_MAC};
use outside::ciphers::plain::{Aes, BLOCK_BYTES, KEY_BYTES};
use outside::ffi::aes_c;
use outside::random::Random;

/// Lengths of a key, beside every length of the IV or text and of the data or room up to the limit.
const KEY_LENGTHS: [usize; 10] = [0, 1, 15, 16, 24, 31, 32, 33, 48, 64];
const LIMIT: usize = 50;

/// The arguments of `cbc_encrypt_and_mac` in their order: key, IV, key of the MAC, head, data, room for the MAC.
type Lengths = [usize; 6];
const RIGHT: Lengths = [KEY_BYTES, BLOCK_BYTES, KEY_BYTES, BLOCK_BYTES, 3 * BLOCK_BYTES, BLOCK_BYTES];
/// What each of them is tried with, in every combination.
const KEYS: &[usize] = &[0, 16, 31, 32, 33, 64];
const BLOCKS: &[usize] = &[0, 15, 16, 17, 32];
const TEXTS: &[usize] = &[0, 1, 15, 16, 17, 31, 32, 33];
const CHOICES: [&[usize]; 6] = [KEYS, BLOCKS, KEYS, BLOCKS, TEXTS, BLOCKS];
/// What each is tried with alone: all up to here, 256 more than the right ones among them, and 65,536 more than those around the right ones.
const ALONE: usize = 320;
const FAR: usize = 1 << 16;

fn alone() -> impl Iterator<Item = usize> {
    let far = [0, 1, 15, 16, 17, 31, 32, 33].map(|bytes| FAR + bytes);
    (0..=ALONE).chain(far)
}

/// The lengths with another one at this place.
fn with<const N: usize>(lengths: [usize; N], place: usize, bytes: usize) -> [usize; N] {
    let mut lengths = lengths;
    lengths[place] = bytes;
    lengths
}

/// What was done, for the lines that are printed at the end: of `cbc_encrypt`, `cbc_decrypt`, `cbc_mac` and `cbc_mac_by_tables`, and of
/// `cbc_encrypt_and_mac`.
#[derive(Default)]
pub struct Tried {
    apart: Done,
    apart_combinations: usize,
    in_one: Done,
    in_one_combinations: usize,
}

impl Tried {
    /// The functions with three arguments.
    pub fn apart(&mut self, aes: &Aes, random: &mut Random) {
        for key_bytes in KEY_LENGTHS {
            for second_bytes in 0..LIMIT {
                for third_bytes in 0..LIMIT {
                    self.all_apart(aes, random, [key_bytes, second_bytes, third_bytes]);
                }
            }
        }
        for bytes in alone() {
            for place in 0..3 {
                self.all_apart(aes, random, with([KEY_BYTES, BLOCK_BYTES, BLOCK_BYTES], place, bytes));
            }
        }
    }

    fn all_apart(&mut self, aes: &Aes, random: &mut Random, lengths: [usize; 3]) {
        self.apart_combinations += 1;
        let [key, second, third] = lengths.map(|bytes| random.bytes(bytes));
        self.cbc(aes, random, &key, &second, &third);
        self.mac(aes, random, &key, &second, &third);
    }

    fn cbc(&mut self, aes: &Aes, random: &mut Random, key: &[u8], iv: &[u8], text: &[u8]) {
        let (done, case) = (&mut self.apart, self.apart_combinations);
        let wanted = first_wrong(&[
            (key.len() != KEY_BYTES, WRONG_KEY),
            (iv.len() != BLOCK_BYTES, WRONG_IV),
            (text.len() % BLOCK_BYTES != 0, WRONG_DATA),
        ]);
        let mut enciphered = text.to_vec();
        let mut deciphered = text.to_vec();
        if wanted == DONE {
            let key = key.try_into().unwrap();
            let iv = iv.try_into().unwrap();
            aes.cbc_encrypt(key, iv, &mut enciphered);
            aes.cbc_decrypt(key, iv, &mut deciphered);
        }
        let (answer, after) = done.call(random, case, text, |b| aes_c::cbc_encrypt(key, iv, b));
        expect(answer == wanted && after == enciphered, case, "lengths of an encryption");
        let (answer, after) = done.call(random, case, text, |b| aes_c::cbc_decrypt(key, iv, b));
        expect(answer == wanted && after == deciphered, case, "lengths of a decryption");
    }

    /// By both engines.
    fn mac(&mut self, aes: &Aes, random: &mut Random, key: &[u8], text: &[u8], room: &[u8]) {
        let (done, case) = (&mut self.apart, self.apart_combinations);
        let wanted = first_wrong(&[
            (key.len() != KEY_BYTES, WRONG_KEY),
            (text.is_empty() || text.len() % BLOCK_BYTES != 0, WRONG_DATA),
            (room.len() != BLOCK_BYTES, WRONG_MAC),
        ]);
        let left = match wanted {
            DONE => aes.cbc_mac(key.try_into().unwrap(), text).to_vec(),
            _ => room.to_vec(),
        };
        let (answer, after) = done.call(random, case, room, |b| aes_c::cbc_mac(key, text, b));
        expect(answer == wanted && after == left, case, "lengths of a MAC");
        let (answer, after) = done.call(random, case, room, |b| aes_c::cbc_mac_by_tables(key, text, b));
        expect(answer == wanted && after == left, case, "lengths of a MAC by tables");
    }

    /// The function that encrypts and MACs.
    pub fn in_one(&mut self, aes: &Aes, random: &mut Random) {
        for number in 0..CHOICES.iter().map(|choice| choice.len()).product() {
            let mut rest: usize = number;
            let lengths = CHOICES.map(|choice| {
                let chosen = choice[rest % choice.len()];
                rest /= choice.len();
                chosen
            });
            self.encrypt_and_mac(aes, random, lengths);
        }
        for bytes in alone() {
            for place in 0..RIGHT.len() {
                self.encrypt_and_mac(aes, random, with(RIGHT, place, bytes));
            }
        }
    }

    fn encrypt_and_mac(&mut self, aes: &Aes, random: &mut Random, lengths: Lengths) {
        self.in_one_combinations += 1;
        let [key, iv, mac_key, head, text, room] = &lengths.map(|bytes| random.bytes(bytes));
        let wanted = first_wrong(&[
            (key.len() != KEY_BYTES || mac_key.len() != KEY_BYTES, WRONG_KEY),
            (iv.len() != BLOCK_BYTES || head.len() != BLOCK_BYTES, WRONG_IV),
            (text.len() % BLOCK_BYTES != 0, WRONG_DATA),
            (room.len() != BLOCK_BYTES, WRONG_MAC),
        ]);
        let mut enciphered = text.clone();
        let mut macced = room.clone();
        if wanted == DONE {
            aes.cbc_encrypt(key[..].try_into().unwrap(), iv[..].try_into().unwrap(), &mut enciphered);
            macced = aes
                .cbc_mac(mac_key[..].try_into().unwrap(), &[&head[..], &enciphered].concat())
                .to_vec();
        }
        let (answer, after, mac) = self.in_one.call_with_mac(random, self.in_one_combinations, text, room, |buf, mac| {
            aes_c::cbc_encrypt_and_mac(key, iv, mac_key, head, buf, mac)
        });
        let is_left = after == enciphered && mac == macced;
        if answer != wanted || !is_left {
            let bytes = if is_left { "right" } else { "wrong" };
            let what = format!("lengths {lengths:?} of encrypting and MAC in one: answer {answer}, wanted {wanted}; bytes {bytes}");
            expect(false, self.in_one_combinations, &what);
        }
    }

    pub fn print(&self) {
        print_answers(self.apart_combinations, "lengths", &self.apart);
        print_answers(self.in_one_combinations, "lengths for encrypting and MAC in one", &self.in_one);
    }
}

fn print_answers(combinations: usize, of: &str, done: &Done) {
    let [right, key, iv, data, mac] = done.answers;
    println!("  {combinations} combinations of {of}: {} calls, of them", done.calls);
    println!("  {right} done, refused for a key {key}, an IV or head {iv}, the data {data}, the MAC {mac}");
}
