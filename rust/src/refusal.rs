//! The numbered refusals.

use core::error::Error;
use core::fmt;

/// Why an operation was refused. A refused operation has left card, session and buffer as they were. A later version may have more.
#[derive(Clone, Copy, PartialEq, Eq, Hash, Debug)]
#[non_exhaustive]
#[repr(u8)]
pub enum Refusal {
    /// RESET, ASK, ANSWER, WRITE: the card is not sound.
    Unsound = 1,
    /// The buffer is smaller than the operation asks for.
    Room = 2,
    /// ANSWER reads a supply, and its length or its flag byte is wrong.
    BadSupply = 3,
    /// WALK: the input is no sequence of fields.
    Malformed = 4,
    /// WALK: templates nest deeper than 4.
    TooDeep = 5,
    /// SEAL: more than 223 bytes of data.
    TooLong = 6,
    /// UNSEAL: the response does not open.
    NotGenuine = 7,
    /// READ, the tap read: the bytes are no card's record.
    NotRecord = 8,
    /// ENTROPY: they are not 12, 15, 18, 21 or 24 numbers of 2 bytes.
    WrongCount = 9,
    /// ENTROPY: a number is over 2047.
    NumberTooLarge = 10,
    /// ENTROPY: the checksum is not that of the entropy.
    WrongChecksum = 11,
}

impl Refusal {
    /// All refusals, in the order of their numbers.
    pub const ALL: [Refusal; 11] = [
        Refusal::Unsound,
        Refusal::Room,
        Refusal::BadSupply,
        Refusal::Malformed,
        Refusal::TooDeep,
        Refusal::TooLong,
        Refusal::NotGenuine,
        Refusal::NotRecord,
        Refusal::WrongCount,
        Refusal::NumberTooLarge,
        Refusal::WrongChecksum,
    ];

    /// The refusal's number, 1 to 11.
    #[must_use]
    pub const fn number(self) -> u8 {
        self as u8
    }

    /// The refusal with this number, if it is 1 to 11.
    #[must_use]
    pub const fn from_number(number: u8) -> Option<Refusal> {
        match number {
            1 => Some(Refusal::Unsound),
            2 => Some(Refusal::Room),
            3 => Some(Refusal::BadSupply),
            4 => Some(Refusal::Malformed),
            5 => Some(Refusal::TooDeep),
            6 => Some(Refusal::TooLong),
            7 => Some(Refusal::NotGenuine),
            8 => Some(Refusal::NotRecord),
            9 => Some(Refusal::WrongCount),
            10 => Some(Refusal::NumberTooLarge),
            11 => Some(Refusal::WrongChecksum),
            _ => None,
        }
    }

    /// The refusal without its number, in words.
    const fn words(self) -> &'static str {
        match self {
            Refusal::Unsound => "the card is not sound",
            Refusal::Room => "the buffer is smaller than the operation asks for",
            Refusal::BadSupply => "the supply's length or its flag byte is wrong",
            Refusal::Malformed => "the input is no sequence of fields",
            Refusal::TooDeep => "templates nest deeper than 4",
            Refusal::TooLong => "more than 223 bytes of data",
            Refusal::NotGenuine => "the response is not genuine",
            Refusal::NotRecord => "the bytes are no card's record",
            Refusal::WrongCount => "not 12, 15, 18, 21 or 24 numbers of 2 bytes",
            Refusal::NumberTooLarge => "a number is over 2047",
            Refusal::WrongChecksum => "the checksum differs",
        }
    }
}

impl fmt::Display for Refusal {
    fn fmt(&self, f: &mut fmt::Formatter<'_>) -> fmt::Result {
        write!(f, "refusal {}: {}", self.number(), self.words())
    }
}

impl Error for Refusal {}
