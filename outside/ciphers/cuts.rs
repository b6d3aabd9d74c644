//! CBC cut at block borders (RULES 7.6): a message in parts, each with the last ciphertext block before it as IV, gives the bytes of the whole
//! message. Two wrong ways to choose that IV give other bytes. Lengths are in bytes.

use crate::{expect, key_and_iv, Done};
use outside::ciphers::plain::{Aes, Block, Key, BLOCK_BYTES};
use outside::ffi::aes_c;
use outside::random::Random;

const CASES: usize = 4_000;
const MOST_BLOCKS: usize = 40;
/// A message of a case is cut into two parts, and once more into three.
const PARTS: [usize; 2] = [2, 3];

#[derive(Clone, Copy)]
enum Direction {
    Encrypt,
    Decrypt,
}

/// What a part takes as its IV where bytes are before it.
#[derive(Clone, Copy)]
enum Iv {
    LastCiphertext,
    /// Wrong: the last block of the plaintext.
    LastPlaintext,
    /// Wrong: the first IV once more.
    First,
}

/// Who does a part: the library or the plain implementation.
type Cipher<'a> = &'a mut dyn FnMut(Direction, &Block, &[u8]) -> Vec<u8>;

/// The parts one after the other, joined. A part of 0 bytes leaves the IV of the next one as it was.
fn in_parts(direction: Direction, chosen: Iv, first_iv: &Block, parts: &[&[u8]], cipher: Cipher) -> Vec<u8> {
    let mut joined = Vec::new();
    let mut iv = *first_iv;
    for part in parts {
        let done = cipher(direction, &iv, part);
        let (plaintext, ciphertext) = match direction {
            Direction::Encrypt => (*part, &done[..]),
            Direction::Decrypt => (&done[..], *part),
        };
        let last = match chosen {
            Iv::LastCiphertext => ciphertext.last_chunk(),
            Iv::LastPlaintext => plaintext.last_chunk(),
            Iv::First => None,
        };
        iv = *last.unwrap_or(&iv);
        joined.extend(done);
    }
    joined
}

/// The message cut at these borders, counted in blocks and in order.
fn parts_of<'a>(text: &'a [u8], borders: &[usize]) -> Vec<&'a [u8]> {
    let starts = [&[0], borders].concat();
    let ends = [borders, &[text.len() / BLOCK_BYTES]].concat();
    let part = |(start, end): (&usize, &usize)| &text[start * BLOCK_BYTES..end * BLOCK_BYTES];
    starts.iter().zip(&ends).map(part).collect()
}

/// What was done, for the line that is printed at the end.
#[derive(Default)]
pub struct Cuts {
    done: Done,
    cuts: usize,
    wrong: usize,
}

impl Cuts {
    /// One message in one direction and one cut, on both sides; `whole` is what the plain implementation has for all of it.
    #[allow(clippy::too_many_arguments)]
    fn compare(
        &mut self,
        aes: &Aes,
        random: &mut Random,
        case: usize,
        key: &Key,
        iv: &Block,
        direction: Direction,
        parts: &[&[u8]],
        whole: &[u8],
    ) {
        let mut plain = |direction, iv: &Block, part: &[u8]| {
            let mut bytes = part.to_vec();
            match direction {
                Direction::Encrypt => aes.cbc_encrypt(key, iv, &mut bytes),
                Direction::Decrypt => aes.cbc_decrypt(key, iv, &mut bytes),
            }
            bytes
        };
        let done = &mut self.done;
        let mut library = |direction, iv: &Block, part: &[u8]| match direction {
            Direction::Encrypt => done.done(random, case, part, |b| aes_c::cbc_encrypt(key, iv, b)),
            Direction::Decrypt => done.done(random, case, part, |b| aes_c::cbc_decrypt(key, iv, b)),
        };
        let sides: [(Cipher, &str); 2] = [(&mut plain, "the plain implementation"), (&mut library, "the library")];
        let continued = parts.iter().filter(|part| !part.is_empty()).count() > 1;
        for (cipher, side) in sides {
            let joined = in_parts(direction, Iv::LastCiphertext, iv, parts, cipher);
            expect(joined == whole, case, &format!("{side}, a message in {} parts", parts.len()));
            for wrong in [Iv::LastPlaintext, Iv::First] {
                let joined = in_parts(direction, wrong, iv, parts, cipher);
                expect((joined != whole) == continued, case, &format!("{side}, parts with a wrong IV"));
            }
        }
        self.cuts += 1;
        self.wrong += usize::from(continued);
    }

    /// The published message, cut at every block border: no bytes before the first cut, and none after the last.
    pub fn published(&mut self, aes: &Aes, random: &mut Random, key: &Key, iv: &Block, plaintext: &[u8], ciphertext: &[u8]) {
        for border in 0..=plaintext.len() / BLOCK_BYTES {
            for (direction, text, whole) in [
                (Direction::Encrypt, plaintext, ciphertext),
                (Direction::Decrypt, ciphertext, plaintext),
            ] {
                let parts = parts_of(text, &[border]);
                self.compare(aes, random, border, key, iv, direction, &parts, whole);
            }
        }
    }

    /// Messages of 0 to 40 blocks with cuts at random borders; a part may have 0 bytes.
    pub fn random(&mut self, aes: &Aes, random: &mut Random) {
        for case in 0..CASES {
            let (key, iv) = key_and_iv(random);
            let blocks = random.below(MOST_BLOCKS + 1);
            let text = random.bytes(blocks * BLOCK_BYTES);
            let mut enciphered = text.clone();
            aes.cbc_encrypt(&key, &iv, &mut enciphered);
            let mut deciphered = text.clone();
            aes.cbc_decrypt(&key, &iv, &mut deciphered);
            for count in PARTS {
                let mut borders: Vec<usize> = (1..count).map(|_| random.below(blocks + 1)).collect();
                borders.sort_unstable();
                let parts = parts_of(&text, &borders);
                self.compare(aes, random, case, &key, &iv, Direction::Encrypt, &parts, &enciphered);
                self.compare(aes, random, case, &key, &iv, Direction::Decrypt, &parts, &deciphered);
            }
        }
    }

    pub fn print(&self) {
        println!(
            "  {} cuts of 0 to {} bytes into 2 and 3 parts, F.2.5 at every block border among them: {} calls; the parts give the bytes of the whole",
            self.cuts,
            MOST_BLOCKS * BLOCK_BYTES,
            self.done.calls
        );
        println!(
            "  {} of them with bytes on both sides of a cut: an IV from the plaintext, or the first IV again, gives other bytes there",
            self.wrong
        );
    }
}
