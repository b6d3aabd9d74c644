//! Supplies, one constructor for each kind: the parts by name, each of the length that ANSWER reads.

use core::fmt;

use crate::buffer::Buffer;
use crate::lengths::{IV_BYTES, KEY_BYTES, PUBLIC_KEY_BYTES, SUPPLY_MAX_BYTES};
use crate::phrase::Phrase;
use crate::refusal::Refusal;
use crate::secrets::wiped;
use crate::supply::SupplyKind;

/// Flags: the host says no, or yes.
const NO: [u8; FLAG_BYTES] = [0x00];
const YES: [u8; FLAG_BYTES] = [0x01];
/// Length of a flag, in bytes.
const FLAG_BYTES: usize = 1;

// What each constructor joins has the length of its kind.
const _: () = assert!(SupplyKind::Init.bytes(0x00) == FLAG_BYTES + KEY_BYTES);
const _: () = assert!(SupplyKind::Open.bytes(0x00) == FLAG_BYTES + 3 * KEY_BYTES + IV_BYTES);
const _: () = assert!(SupplyKind::Mutual.bytes(0x00) == KEY_BYTES);
const _: () = assert!(SupplyKind::PairFirst.bytes(0x00) == KEY_BYTES);
const _: () = assert!(SupplyKind::PairFinal.bytes(0x00) == KEY_BYTES);
const _: () = assert!(SupplyKind::Load.bytes(0x00) == FLAG_BYTES + PUBLIC_KEY_BYTES);
const _: () = assert!(SupplyKind::Derive.bytes(0x00) == FLAG_BYTES);
const _: () = assert!(SupplyKind::Sign.bytes(0x00) == PUBLIC_KEY_BYTES + 2 * KEY_BYTES);
const _: () = assert!(SupplyKind::Export.bytes(0x00) == FLAG_BYTES + PUBLIC_KEY_BYTES + KEY_BYTES);

/// A supply: what ANSWER reads from the host, and of which kind it is. Its length is that of its kind, and its flag, if it has one, 00 or 01.
///
/// Kinds with a flag have two constructors: the one with parts is flag 01, and that with `no_` flag 00 and zeros. How each part is worked
/// out is in `docs/INTEGRATION.md` of the repository, section 5.1. Supplies hold keys and entropy: they are overwritten with zeros when they
/// are dropped, and `Debug` shows the kind alone.
///
/// ```
/// use treadlewisp::{OpenParts, Supply, SupplyKind};
/// let supply = Supply::open(&OpenParts {
///     enc_key: &[0x61; 32], // the first 32 bytes of SHA-512(ECDH secret, pairing key, salt)
///     mac_key: &[0x62; 32], // its last 32 bytes
///     salt: &[0x91; 32],
///     iv: &[0x63; 16],
/// });
/// assert_eq!(supply.kind(), SupplyKind::Open);
/// assert_eq!(supply.bytes().len(), 1 + 32 + 32 + 32 + 16);
/// assert_eq!(supply.bytes()[0], 0x01);
///
/// // The terminal's point is not on the curve.
/// assert_eq!(Supply::no_open().bytes(), [0x00; 113]);
/// ```
#[must_use = "a supply is for ANSWER to read"]
pub struct Supply {
    kind: SupplyKind,
    bytes: Buffer<SUPPLY_MAX_BYTES>,
}

/// The parts of OPEN's supply, [`Supply::open`].
#[derive(Clone, Copy)]
pub struct OpenParts<'a> {
    /// The channel's encryption key, 32 bytes.
    pub enc_key: &'a [u8; KEY_BYTES],
    /// The channel's MAC key, 32 bytes.
    pub mac_key: &'a [u8; KEY_BYTES],
    /// The salt, 32 random bytes, which the terminal gets.
    pub salt: &'a [u8; KEY_BYTES],
    /// The channel's first IV, 16 random bytes, which the terminal gets.
    pub iv: &'a [u8; IV_BYTES],
}

/// The parts of SIGN's supply, [`Supply::sign`].
#[derive(Clone, Copy)]
pub struct SignParts<'a> {
    /// The public key of the key that signed, 65 bytes.
    pub public_key: &'a [u8; PUBLIC_KEY_BYTES],
    /// The signature's r, a number in 32 bytes.
    pub r: &'a [u8; KEY_BYTES],
    /// The signature's s, a number in 32 bytes.
    pub s: &'a [u8; KEY_BYTES],
}

/// The parts of EXPORT's supply, [`Supply::export`].
#[derive(Clone, Copy)]
pub struct ExportParts<'a> {
    /// The public key, 65 bytes.
    pub public_key: &'a [u8; PUBLIC_KEY_BYTES],
    /// The private key, 32 bytes; none where the public key goes out alone. The supply then has 32 zeros, which ANSWER does not read.
    pub private_key: Option<&'a [u8; KEY_BYTES]>,
}

/// One constructor for each kind.
impl Supply {
    /// INIT, 33 bytes: yes, and the AES key of 32 bytes, which is the ECDH secret.
    ///
    /// ```
    /// use treadlewisp::Supply;
    /// assert_eq!(Supply::init(&[0x81; 32]).bytes(), [&[0x01][..], &[0x81; 32]].concat());
    /// ```
    pub fn init(aes_key: &[u8; KEY_BYTES]) -> Supply {
        Supply::of(SupplyKind::Init, &[&YES, aes_key])
    }

    /// INIT, 33 bytes: no, the point is not on the curve.
    pub fn no_init() -> Supply {
        Supply::no(SupplyKind::Init)
    }

    /// OPEN, 113 bytes: yes, encryption key 32, MAC key 32, salt 32, IV 16. [`Supply`] has an example.
    pub fn open(parts: &OpenParts) -> Supply {
        Supply::of(SupplyKind::Open, &[&YES, parts.enc_key, parts.mac_key, parts.salt, parts.iv])
    }

    /// OPEN, 113 bytes: no, the point is not on the curve.
    pub fn no_open() -> Supply {
        Supply::no(SupplyKind::Open)
    }

    /// MUTUAL, 32 random bytes.
    ///
    /// ```
    /// use treadlewisp::Supply;
    /// assert_eq!(Supply::mutual(&[0x92; 32]).bytes(), [0x92; 32]);
    /// ```
    pub fn mutual(random: &[u8; KEY_BYTES]) -> Supply {
        Supply::of(SupplyKind::Mutual, &[random])
    }

    /// PAIR's first step, 32 bytes: the card's challenge, random, which the client gets. The card works out its own cryptogram and the one that
    /// it expects of the client.
    ///
    /// ```
    /// use treadlewisp::Supply;
    /// assert_eq!(Supply::pair_first(&[0x02; 32]).bytes(), [0x02; 32]);
    /// ```
    pub fn pair_first(challenge: &[u8; KEY_BYTES]) -> Supply {
        Supply::of(SupplyKind::PairFirst, &[challenge])
    }

    /// PAIR's final step, 32 bytes: the salt, random, which the client gets. The card works out the pairing key.
    ///
    /// ```
    /// use treadlewisp::Supply;
    /// assert_eq!(Supply::pair_final(&[0x04; 32]).bytes(), [0x04; 32]);
    /// ```
    pub fn pair_final(salt: &[u8; KEY_BYTES]) -> Supply {
        Supply::of(SupplyKind::PairFinal, &[salt])
    }

    /// LOAD, 66 bytes: yes, and the public key of the loaded key, 65 bytes. The card works out the key UID from it.
    ///
    /// ```
    /// use treadlewisp::Supply;
    /// assert_eq!(Supply::load(&[0x04; 65]).bytes(), [&[0x01][..], &[0x04; 65]].concat());
    /// ```
    pub fn load(public_key: &[u8; PUBLIC_KEY_BYTES]) -> Supply {
        Supply::of(SupplyKind::Load, &[&YES, public_key])
    }

    /// LOAD, 66 bytes: no, this is no key, or the seed gives none.
    pub fn no_load() -> Supply {
        Supply::no(SupplyKind::Load)
    }

    /// DERIVE, 1 byte: yes, the path leads to a key.
    ///
    /// ```
    /// use treadlewisp::Supply;
    /// assert_eq!((Supply::derive().bytes(), Supply::no_derive().bytes()), (&[0x01][..], &[0x00][..]));
    /// ```
    pub fn derive() -> Supply {
        Supply::of(SupplyKind::Derive, &[&YES])
    }

    /// DERIVE, 1 byte: no, a component of the path gives no valid key.
    pub fn no_derive() -> Supply {
        Supply::no(SupplyKind::Derive)
    }

    /// SIGN, 129 bytes: public key 65, r 32, s 32.
    ///
    /// ```
    /// use treadlewisp::{SignParts, Supply};
    /// let supply = Supply::sign(&SignParts { public_key: &[0x04; 65], r: &[0x06; 32], s: &[0x07; 32] });
    /// assert_eq!(supply.bytes(), [&[0x04; 65][..], &[0x06; 32], &[0x07; 32]].concat());
    /// ```
    pub fn sign(parts: &SignParts) -> Supply {
        Supply::of(SupplyKind::Sign, &[parts.public_key, parts.r, parts.s])
    }

    /// EXPORT, 98 bytes: yes, public key 65, private key 32.
    ///
    /// ```
    /// use treadlewisp::{ExportParts, Supply};
    /// let both = Supply::export(&ExportParts { public_key: &[0x04; 65], private_key: Some(&[0x72; 32]) });
    /// assert_eq!(both.bytes(), [&[0x01][..], &[0x04; 65], &[0x72; 32]].concat());
    /// let public = Supply::export(&ExportParts { public_key: &[0x04; 65], private_key: None });
    /// assert_eq!(public.bytes(), [&[0x01][..], &[0x04; 65], &[0x00; 32]].concat());
    /// ```
    pub fn export(parts: &ExportParts) -> Supply {
        let private_key = parts.private_key.unwrap_or(&[0; KEY_BYTES]);
        Supply::of(SupplyKind::Export, &[&YES, parts.public_key, private_key])
    }

    /// EXPORT, 98 bytes: no, a component of the path gives no valid key.
    pub fn no_export() -> Supply {
        Supply::no(SupplyKind::Export)
    }

    /// GENERATE MNEMONIC, 16, 20, 24, 28 or 32 bytes: the entropy, random, of which the card makes the numbers of the words. How many bytes
    /// it has to have for the command, [`Phrase::entropy_bytes`] says.
    ///
    /// Whoever can guess the entropy has the wallet: it comes from the system's source of random numbers for keys, and is new each time. The
    /// supply is wiped when it is dropped; the bytes that are lent are the caller's to [`wipe`](crate::wipe).
    ///
    /// # Errors
    ///
    /// [`Refusal::BadSupply`] where there are not 16, 20, 24, 28 or 32 bytes. ANSWER refuses in the same way a supply whose length is that of
    /// another P1.
    ///
    /// ```
    /// use treadlewisp::{Phrase, Refusal, Supply};
    /// let random = [0x9E; 32];
    /// let supply = Supply::mnemonic(&random[..Phrase::Words12.entropy_bytes()])?;
    /// assert_eq!(supply.bytes(), [0x9E; 16]);
    /// assert_eq!(Supply::mnemonic(&random[..17]).err(), Some(Refusal::BadSupply));
    /// # Ok::<(), Refusal>(())
    /// ```
    pub fn mnemonic(entropy: &[u8]) -> Result<Supply, Refusal> {
        Supply::from_bytes(SupplyKind::Mnemonic, entropy)
    }

    /// A supply of this kind that was put together elsewhere, such as in a module that keeps the keys.
    ///
    /// # Errors
    ///
    /// [`Refusal::BadSupply`] where it has not [`kind.bytes(p1)`](SupplyKind::bytes) bytes, for GENERATE MNEMONIC with any P1 that it takes, or
    /// its flag is neither 00 nor 01: as ANSWER refuses it.
    ///
    /// ```
    /// use treadlewisp::{Refusal, Supply, SupplyKind};
    /// let supply = Supply::from_bytes(SupplyKind::Mutual, &[0x92; 32])?;
    /// assert_eq!(supply.bytes(), [0x92; 32]);
    /// assert_eq!(Supply::from_bytes(SupplyKind::Mutual, &[0x92; 31]).err(), Some(Refusal::BadSupply));
    /// assert_eq!(Supply::from_bytes(SupplyKind::Derive, &[0x02]).err(), Some(Refusal::BadSupply));
    /// # Ok::<(), Refusal>(())
    /// ```
    pub fn from_bytes(kind: SupplyKind, bytes: &[u8]) -> Result<Supply, Refusal> {
        let flag_is_right = !kind.has_flag() || bytes.starts_with(&NO) || bytes.starts_with(&YES);
        if has_length(kind, bytes.len()) && flag_is_right {
            Ok(Supply::of(kind, &[bytes]))
        } else {
            Err(Refusal::BadSupply)
        }
    }

    /// For a command that reads no supply.
    pub(crate) fn none() -> Supply {
        Supply::of(SupplyKind::None, &[])
    }

    /// The parts, joined. Were they too long, the supply would be empty, and ANSWER would refuse it.
    fn of(kind: SupplyKind, parts: &[&[u8]]) -> Supply {
        wiped(|| Supply {
            kind,
            bytes: Buffer::joined(parts).unwrap_or(Buffer::new()),
        })
    }

    /// Flag 00, and zeros up to the kind's length.
    fn no(kind: SupplyKind) -> Supply {
        let zeros = [0; SUPPLY_MAX_BYTES];
        let rest = zeros.get(FLAG_BYTES..kind.bytes(0x00)).unwrap_or(&[]);
        Supply::of(kind, &[&NO, rest])
    }
}

/// Whether a supply of this kind may have so many bytes. But for GENERATE MNEMONIC, P1 makes no difference.
fn has_length(kind: SupplyKind, bytes: usize) -> bool {
    match kind {
        SupplyKind::Mnemonic => Phrase::ALL.iter().any(|phrase| phrase.entropy_bytes() == bytes),
        _ => kind.bytes(0x00) == bytes,
    }
}

impl Supply {
    /// The kind.
    #[must_use]
    pub fn kind(&self) -> SupplyKind {
        self.kind
    }

    /// The bytes, as [`Card::answer`](crate::Card::answer) takes them: [`SupplyKind::bytes`] of them.
    #[must_use]
    pub fn bytes(&self) -> &[u8] {
        self.bytes.bytes()
    }
}

/// The kind alone.
impl fmt::Debug for Supply {
    fn fmt(&self, f: &mut fmt::Formatter<'_>) -> fmt::Result {
        f.debug_struct("Supply").field("kind", &self.kind).finish_non_exhaustive()
    }
}
