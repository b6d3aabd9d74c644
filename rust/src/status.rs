//! Status words.

use core::fmt;

/// A status word: the last two bytes of an answer, the high byte first (in a sealed answer, of its plaintext).
#[derive(Clone, Copy, PartialEq, Eq, PartialOrd, Ord, Hash, Debug)]
pub struct StatusWord(pub u16);

impl StatusWord {
    /// Success.
    pub const SUCCESS: StatusWord = StatusWord(0x9000);
    /// A wrong PIN or PUK, or none left to compare: no tries left.
    pub const TRIES_LEFT_0: StatusWord = StatusWord(0x63C0);
    /// A wrong PIN or PUK: 1 try left.
    pub const TRIES_LEFT_1: StatusWord = StatusWord(0x63C1);
    /// A wrong PIN or PUK: 2 tries left.
    pub const TRIES_LEFT_2: StatusWord = StatusWord(0x63C2);
    /// A wrong PUK: 3 tries left.
    pub const TRIES_LEFT_3: StatusWord = StatusWord(0x63C3);
    /// A wrong PUK: 4 tries left.
    pub const TRIES_LEFT_4: StatusWord = StatusWord(0x63C4);
    /// The command's form is wrong.
    pub const WRONG_LENGTH: StatusWord = StatusWord(0x6700);
    /// The command does not open, or a cryptogram differs.
    pub const SECURITY_NOT_MET: StatusWord = StatusWord(0x6982);
    /// DERIVE and EXPORT: the path leads to no key.
    pub const REFERENCE_INVALID: StatusWord = StatusWord(0x6984);
    /// The card is not in a state for this command; EXPORT also where the private key of this path does not go out.
    pub const CONDITIONS_NOT_MET: StatusWord = StatusWord(0x6985);
    /// The command's data are wrong.
    pub const WRONG_DATA: StatusWord = StatusWord(0x6A80);
    /// SELECT: another application.
    pub const NOT_FOUND: StatusWord = StatusWord(0x6A82);
    /// PAIR: no slot is free.
    pub const NO_SPACE: StatusWord = StatusWord(0x6A84);
    /// P1 or P2 is wrong.
    pub const WRONG_PARAMETERS: StatusWord = StatusWord(0x6A86);
    /// The instruction is not there, or not now.
    pub const UNKNOWN_INSTRUCTION: StatusWord = StatusWord(0x6D00);
    /// The class is not there.
    pub const UNKNOWN_CLASS: StatusWord = StatusWord(0x6E00);

    /// The last two bytes of an answer, if it has two.
    ///
    /// ```
    /// use treadlewisp::StatusWord;
    /// assert_eq!(StatusWord::of(&[0x01, 0x63, 0xC2]), Some(StatusWord::TRIES_LEFT_2));
    /// assert_eq!(StatusWord::of(&[0x90]), None);
    /// ```
    #[must_use]
    pub fn of(answer: &[u8]) -> Option<StatusWord> {
        answer.last_chunk().map(|&word| StatusWord(u16::from_be_bytes(word)))
    }

    /// The number.
    #[must_use]
    pub const fn number(self) -> u16 {
        self.0
    }

    /// Whether this is 9000.
    #[must_use]
    pub const fn is_success(self) -> bool {
        self.0 == StatusWord::SUCCESS.0
    }

    /// The tries left, if this is 63CX.
    ///
    /// ```
    /// use treadlewisp::StatusWord;
    /// assert_eq!(StatusWord(0x63C2).tries_left(), Some(2));
    /// assert_eq!(StatusWord::SUCCESS.tries_left(), None);
    /// ```
    #[must_use]
    pub const fn tries_left(self) -> Option<u8> {
        let [high, low] = self.0.to_be_bytes();
        if high == 0x63 && low & 0xF0 == 0xC0 {
            Some(low & 0x0F)
        } else {
            None
        }
    }

    /// The name, where it is a status word that the card gives.
    const fn name(self) -> &'static str {
        match self {
            StatusWord::SUCCESS => "success",
            StatusWord::WRONG_LENGTH => "wrong length",
            StatusWord::SECURITY_NOT_MET => "security status not met",
            StatusWord::REFERENCE_INVALID => "reference data invalid",
            StatusWord::CONDITIONS_NOT_MET => "conditions not met",
            StatusWord::WRONG_DATA => "wrong data",
            StatusWord::NOT_FOUND => "not found",
            StatusWord::NO_SPACE => "no space",
            StatusWord::WRONG_PARAMETERS => "wrong P1 or P2",
            StatusWord::UNKNOWN_INSTRUCTION => "unknown instruction",
            StatusWord::UNKNOWN_CLASS => "unknown class",
            _ => "no status word of this card",
        }
    }
}

/// Four hexadecimal digits and the name.
///
/// ```
/// use treadlewisp::StatusWord;
/// assert_eq!(StatusWord(0x63C2).to_string(), "63C2 (2 tries left)");
/// assert_eq!(StatusWord::SUCCESS.to_string(), "9000 (success)");
/// ```
impl fmt::Display for StatusWord {
    fn fmt(&self, f: &mut fmt::Formatter<'_>) -> fmt::Result {
        match self.tries_left() {
            Some(1) => write!(f, "{:04X} (1 try left)", self.0),
            Some(tries) => write!(f, "{:04X} ({tries} tries left)", self.0),
            None => write!(f, "{:04X} ({})", self.0, self.name()),
        }
    }
}
