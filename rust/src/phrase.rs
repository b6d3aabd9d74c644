//! Recovery phrases (BIP 39): how many words they have, and ENTROPY, from the numbers of the words back to the entropy.

use core::fmt;

use crate::buffer::Buffer;
use crate::command::*;
use crate::ffi;
use crate::lengths::*;
use crate::refusal::Refusal;
use crate::secrets::wiped;

/// A recovery phrase of 12, 15, 18, 21 or 24 words: P1 of GENERATE MNEMONIC, which is the size of the phrase's checksum in bits.
///
/// The engine has numbers of words, not words: no list is kept.
///
/// ```
/// use treadlewisp::Phrase;
/// let sizes = Phrase::ALL.map(|phrase| (phrase.checksum_bits(), phrase.entropy_bytes(), phrase.words(), phrase.words_bytes()));
/// assert_eq!(sizes, [(4, 16, 12, 24), (5, 20, 15, 30), (6, 24, 18, 36), (7, 28, 21, 42), (8, 32, 24, 48)]);
/// ```
#[derive(Clone, Copy, PartialEq, Eq, PartialOrd, Ord, Hash, Debug)]
#[repr(u8)]
pub enum Phrase {
    /// 12 words, of 16 bytes of entropy.
    Words12 = P1_MNEMONIC_12_WORDS,
    /// 15 words, of 20 bytes of entropy.
    Words15 = P1_MNEMONIC_15_WORDS,
    /// 18 words, of 24 bytes of entropy.
    Words18 = P1_MNEMONIC_18_WORDS,
    /// 21 words, of 28 bytes of entropy.
    Words21 = P1_MNEMONIC_21_WORDS,
    /// 24 words, of 32 bytes of entropy.
    Words24 = P1_MNEMONIC_24_WORDS,
}

/// How many words there are for each bit of the checksum.
const WORDS_PER_CHECKSUM_BIT: usize = 3;

impl Phrase {
    /// All of them, from the shortest on.
    pub const ALL: [Phrase; 5] = [Phrase::Words12, Phrase::Words15, Phrase::Words18, Phrase::Words21, Phrase::Words24];

    /// The phrase with a checksum of so many bits, if they are 4 to 8: that of P1.
    #[must_use]
    pub const fn from_checksum_bits(bits: u8) -> Option<Phrase> {
        match bits {
            P1_MNEMONIC_12_WORDS => Some(Phrase::Words12),
            P1_MNEMONIC_15_WORDS => Some(Phrase::Words15),
            P1_MNEMONIC_18_WORDS => Some(Phrase::Words18),
            P1_MNEMONIC_21_WORDS => Some(Phrase::Words21),
            P1_MNEMONIC_24_WORDS => Some(Phrase::Words24),
            _ => None,
        }
    }

    /// The size of its checksum, in bits, 4 to 8: P1 of GENERATE MNEMONIC.
    #[must_use]
    pub const fn checksum_bits(self) -> u8 {
        self as u8
    }

    /// The length of its entropy, in bytes: 16, 20, 24, 28 or 32. So many random bytes the host supplies.
    #[must_use]
    pub const fn entropy_bytes(self) -> usize {
        self as usize * ENTROPY_BYTES_PER_CHECKSUM_BIT
    }

    /// How many words it has: 12, 15, 18, 21 or 24.
    #[must_use]
    pub const fn words(self) -> usize {
        self as usize * WORDS_PER_CHECKSUM_BIT
    }

    /// The length of the numbers of its words, in bytes, 2 for each: 24, 30, 36, 42 or 48. So many GENERATE MNEMONIC answers.
    #[must_use]
    pub const fn words_bytes(self) -> usize {
        self.words() * WORD_NUMBER_BYTES
    }
}

const _: () = assert!(Phrase::Words12.entropy_bytes() == ENTROPY_MIN_BYTES && Phrase::Words24.entropy_bytes() == ENTROPY_MAX_BYTES);
const _: () = assert!(Phrase::Words12.words_bytes() == WORDS_MIN_BYTES && Phrase::Words24.words_bytes() == WORDS_MAX_BYTES);

/// The entropy of a recovery phrase, 16, 20, 24, 28 or 32 bytes, as [`entropy`] gives it. Whoever has it has the wallet: it is overwritten
/// with zeros when it is dropped, and `Debug` shows its length alone.
pub struct Entropy {
    bytes: Buffer<ENTROPY_MAX_BYTES>,
}

impl Entropy {
    /// The bytes: [`Phrase::entropy_bytes`] of them.
    #[must_use]
    pub fn bytes(&self) -> &[u8] {
        self.bytes.bytes()
    }
}

/// How many bytes there are.
impl fmt::Debug for Entropy {
    fn fmt(&self, f: &mut fmt::Formatter<'_>) -> fmt::Result {
        f.debug_struct("Entropy")
            .field("bytes", &self.bytes().len())
            .finish_non_exhaustive()
    }
}

/// ENTROPY: from the numbers of a recovery phrase's words back to its entropy (BIP 39). The words are what GENERATE MNEMONIC answers: 12,
/// 15, 18, 21 or 24 numbers from 0 to [`WORD_NUMBER_MAX`], each in 2 bytes, the high byte first.
///
/// The two undo each other: of what the card answers this gives the entropy that its host supplied, and the numbers of that entropy are the
/// words again. It needs no card, no session and no list of words.
///
/// Words and entropy are secrets. [`Entropy`] is wiped when it is dropped, and an [`Answer`](crate::Answer) with the words too; words that
/// the caller has made as bytes are the caller's to [`wipe`](crate::wipe).
///
/// # Errors
///
/// In this order:
///
/// - [`Refusal::WrongCount`] where they are not 12, 15, 18, 21 or 24 numbers of 2 bytes, so any length but 24, 30, 36, 42 and 48 bytes;
/// - [`Refusal::NumberTooLarge`] where a number is over [`WORD_NUMBER_MAX`];
/// - [`Refusal::WrongChecksum`] where the bits after the entropy are not the first of its SHA-256: a word was copied wrongly, or two have
///   changed places.
///
/// BIP 39's first test: 16 zeros of entropy are 11 times the word with the number 0, `abandon`, and that with the number 3, `about`.
///
/// ```
/// use treadlewisp::{entropy, Refusal};
/// let bytes = |numbers: &[u16]| numbers.iter().flat_map(|number| number.to_be_bytes()).collect::<Vec<u8>>();
/// let mut numbers = [0, 0, 0, 0, 0, 0, 0, 0, 0, 0, 0, 3];
/// assert_eq!(entropy(&bytes(&numbers))?.bytes(), [0; 16]);
///
/// numbers[11] = 4;
/// assert_eq!(entropy(&bytes(&numbers)).err(), Some(Refusal::WrongChecksum));
/// numbers[0] = 2048;
/// assert_eq!(entropy(&bytes(&numbers)).err(), Some(Refusal::NumberTooLarge));
/// assert_eq!(entropy(&bytes(&numbers[..11])).err(), Some(Refusal::WrongCount));
/// # Ok::<(), Refusal>(())
/// ```
pub fn entropy(words: &[u8]) -> Result<Entropy, Refusal> {
    wiped(|| {
        let bytes = Buffer::written(|room| ffi::entropy(words, room))?;
        Ok(Entropy { bytes })
    })
}

/// [`entropy`] into a buffer of the caller's: the entropy from its start, and its length in bytes. Bytes past the count are never touched.
/// The buffer is the caller's to [`wipe`](crate::wipe).
///
/// # Errors
///
/// [`Refusal::Room`] where the buffer is under [`ENTROPY_ROOM_BYTES`], however few the words; then as for [`entropy`]. The buffer is then as
/// it was.
///
/// ```
/// use treadlewisp::{entropy_into, wipe, Refusal, ENTROPY_ROOM_BYTES};
/// let mut words = [0; 24];
/// words[23] = 3;
/// let mut buffer = [0xA5; ENTROPY_ROOM_BYTES];
/// assert_eq!(entropy_into(&words, &mut buffer[1..]), Err(Refusal::Room));
/// assert_eq!(entropy_into(&words, &mut buffer)?, 16);
/// assert_eq!(buffer, [[0; 16], [0xA5; 16]].concat()[..]);
/// wipe(&mut buffer);
/// # Ok::<(), Refusal>(())
/// ```
pub fn entropy_into(words: &[u8], buffer: &mut [u8]) -> Result<usize, Refusal> {
    wiped(|| ffi::entropy(words, buffer))
}
