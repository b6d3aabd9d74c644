//! Kinds of supply: the results of curve arithmetic and the random bytes that ANSWER reads from the host.

use core::fmt;

use crate::lengths::ENTROPY_BYTES_PER_CHECKSUM_BIT;
use crate::phrase::Phrase;

/// A kind of supply, as ASK reports it. A flag is one byte, 00 (no) or 01 (yes); after 00 the rest is there but not read. [`Supply`](crate::Supply)
/// has a constructor for each kind. A later version may have more kinds.
#[derive(Clone, Copy, PartialEq, Eq, PartialOrd, Ord, Hash, Debug)]
#[non_exhaustive]
#[repr(u8)]
pub enum SupplyKind {
    /// ANSWER reads no supply.
    None = 0,
    /// INIT: flag, AES key 32; 33 bytes.
    Init = 1,
    /// OPEN: flag, encryption key 32, MAC key 32, salt 32, IV 16; 113 bytes.
    Open = 2,
    /// MUTUAL: random, 32 bytes.
    Mutual = 3,
    /// PAIR's first step: the card's challenge, 32 bytes. The card works out both cryptograms.
    PairFirst = 4,
    /// PAIR's final step: salt, 32 bytes. The card works out the pairing key.
    PairFinal = 5,
    /// LOAD: flag, public key 65; 66 bytes. The card works out the key UID.
    Load = 6,
    /// DERIVE: flag, 1 byte.
    Derive = 7,
    /// SIGN: public key 65, r 32, s 32; 129 bytes.
    Sign = 8,
    /// EXPORT: flag, public key 65, private key 32; 98 bytes, also where the public key goes out alone: the last 32 are then not read. With
    /// P1 00 ASK hands out no data; the path is the card's current one.
    Export = 9,
    /// GENERATE MNEMONIC: entropy, random, 4 times P1 bytes: 16, 20, 24, 28 or 32. ASK hands out no data; P1 is the third byte of the command.
    Mnemonic = 10,
}

impl SupplyKind {
    /// All kinds, in the order of their numbers.
    pub const ALL: [SupplyKind; 11] = [
        SupplyKind::None,
        SupplyKind::Init,
        SupplyKind::Open,
        SupplyKind::Mutual,
        SupplyKind::PairFirst,
        SupplyKind::PairFinal,
        SupplyKind::Load,
        SupplyKind::Derive,
        SupplyKind::Sign,
        SupplyKind::Export,
        SupplyKind::Mnemonic,
    ];

    /// The kind's number, 0 to 10.
    #[must_use]
    pub const fn number(self) -> u8 {
        self as u8
    }

    /// The kind with this number, if it is 0 to 10.
    #[must_use]
    pub const fn from_number(number: u8) -> Option<SupplyKind> {
        match number {
            0 => Some(SupplyKind::None),
            1 => Some(SupplyKind::Init),
            2 => Some(SupplyKind::Open),
            3 => Some(SupplyKind::Mutual),
            4 => Some(SupplyKind::PairFirst),
            5 => Some(SupplyKind::PairFinal),
            6 => Some(SupplyKind::Load),
            7 => Some(SupplyKind::Derive),
            8 => Some(SupplyKind::Sign),
            9 => Some(SupplyKind::Export),
            10 => Some(SupplyKind::Mnemonic),
            _ => None,
        }
    }

    /// How many bytes ANSWER wants for a command with this P1; 0 where it reads no supply. P1 makes a difference for
    /// [`Mnemonic`](SupplyKind::Mnemonic) alone.
    ///
    /// ```
    /// use treadlewisp::SupplyKind;
    /// assert_eq!(SupplyKind::Open.bytes(0x07), 113); // in OPEN P1 is the slot
    /// assert_eq!((SupplyKind::Mnemonic.bytes(0x04), SupplyKind::Mnemonic.bytes(0x08)), (16, 32));
    /// assert_eq!(SupplyKind::Mnemonic.bytes(0x09), 0); // 6A86, and no supply is read
    /// ```
    #[must_use]
    pub const fn bytes(self, p1: u8) -> usize {
        match self {
            SupplyKind::None => 0,
            SupplyKind::Init => 33,
            SupplyKind::Open => 113,
            SupplyKind::Mutual | SupplyKind::PairFirst | SupplyKind::PairFinal => 32,
            SupplyKind::Load => 66,
            SupplyKind::Derive => 1,
            SupplyKind::Sign => 129,
            SupplyKind::Export => 98,
            SupplyKind::Mnemonic => match Phrase::from_checksum_bits(p1) {
                Some(phrase) => phrase.entropy_bytes(),
                None => 0,
            },
        }
    }

    /// Whether the supply's first byte is a flag.
    #[must_use]
    pub const fn has_flag(self) -> bool {
        matches!(
            self,
            SupplyKind::Init | SupplyKind::Open | SupplyKind::Load | SupplyKind::Derive | SupplyKind::Export
        )
    }

    /// The name of the command that reads this supply; none for kind 0.
    #[must_use]
    pub const fn command_name(self) -> Option<&'static str> {
        match self {
            SupplyKind::None => None,
            SupplyKind::Init => Some("INIT"),
            SupplyKind::Open => Some("OPEN"),
            SupplyKind::Mutual => Some("MUTUAL"),
            SupplyKind::PairFirst => Some("PAIR first"),
            SupplyKind::PairFinal => Some("PAIR final"),
            SupplyKind::Load => Some("LOAD"),
            SupplyKind::Derive => Some("DERIVE"),
            SupplyKind::Sign => Some("SIGN"),
            SupplyKind::Export => Some("EXPORT"),
            SupplyKind::Mnemonic => Some("GENERATE MNEMONIC"),
        }
    }
}

impl fmt::Display for SupplyKind {
    fn fmt(&self, f: &mut fmt::Formatter<'_>) -> fmt::Result {
        match (self, self.command_name()) {
            (_, None) => write!(f, "no supply"),
            (SupplyKind::Mnemonic, Some(name)) => write!(f, "supply for {name}, {ENTROPY_BYTES_PER_CHECKSUM_BIT} times P1 bytes"),
            (_, Some(name)) => write!(f, "supply for {name}, {} bytes", self.bytes(0x00)),
        }
    }
}
