//! The host's end of a call: what a host has to be able to do, and the call in the order that keeps a lost try lost.

use core::error::Error;
use core::fmt;

use crate::buffer::Buffer;
use crate::card::Card;
use crate::channel_command::ExportedKeys;
use crate::command::{P1_EXPORT_CURRENT, P2_EXPORT_PRIVATE_AND_PUBLIC};
use crate::lengths::*;
use crate::loaded::LoadedKey;
use crate::parts::Path;
use crate::phrase::Phrase;
use crate::refusal::Refusal;
use crate::reply::Answer;
use crate::secrets::wiped;
use crate::supplies::Supply;
use crate::supply::SupplyKind;

/// What a host does for its card: it makes the supply that a command needs, and stores the card's record. [`Card::serve`] calls it.
///
/// Each method is called for one kind of supply, after the engine has looked at the command: a point has 65 bytes and begins with 04, a
/// path has at most 10 components, the PIN is verified where it has to be. What is left is curve arithmetic, the channel's keys, random numbers
/// and the keeping of keys; `docs/INTEGRATION.md` of the repository has the rules, in section 5.1. PAIR's cryptograms, its pairing key and LOAD's
/// key UID the card works out itself. `card` is the card as the command finds it.
///
/// Where the answer is no (the point is not on the curve, the path leads to no key), the supply is one of `Supply::no_..`, and the card
/// answers with a status word. An `Err` means that the host cannot do its work: no answer is made, as if the power had failed.
///
/// `examples/host.rs` is a host with a real curve. This one has a host's form, and numbers that are made up:
///
/// ```
/// use treadlewisp::*;
///
/// #[derive(Default)]
/// struct Shelf {
///     stored: Vec<Vec<u8>>,
/// }
///
/// impl Host for Shelf {
///     type Error = std::convert::Infallible;
///     fn init(&mut self, _: &Card, _point: &[u8; 65]) -> Result<Supply, Self::Error> {
///         Ok(Supply::init(&[0x81; 32])) // ECDH of the card's private key and the point
///     }
///     fn open(&mut self, card: &Card, slot: u8, _point: &[u8; 65]) -> Result<Supply, Self::Error> {
///         assert!(card.slots()[usize::from(slot)].is_filled());
///         Ok(Supply::no_open())
///     }
///     fn mutual(&mut self, _: &Card, _random: &[u8; 32]) -> Result<Supply, Self::Error> {
///         Ok(Supply::mutual(&[0x92; 32]))
///     }
///     fn pair_first(&mut self, _: &Card, _challenge: &[u8; 32]) -> Result<Supply, Self::Error> {
///         Ok(Supply::pair_first(&[0x93; 32])) // a random challenge
///     }
///     fn pair_final(&mut self, _: &Card, _cryptogram: &[u8; 32]) -> Result<Supply, Self::Error> {
///         Ok(Supply::pair_final(&[0x91; 32])) // a random salt
///     }
///     fn load(&mut self, _: &Card, _key: LoadedKey) -> Result<Supply, Self::Error> {
///         Ok(Supply::load(&[0x04; 65])) // the public key of the loaded key
///     }
///     fn derive(&mut self, _: &Card, _path: &Path) -> Result<Supply, Self::Error> {
///         Ok(Supply::no_derive())
///     }
///     fn sign(&mut self, _: &Card, _hash: &[u8; 32]) -> Result<Supply, Self::Error> {
///         Ok(Supply::sign(&SignParts { public_key: &[4; 65], r: &[6; 32], s: &[7; 32] }))
///     }
///     fn export(&mut self, _: &Card, _path: &Path, _keys: ExportedKeys) -> Result<Supply, Self::Error> {
///         Ok(Supply::no_export())
///     }
///     fn mnemonic(&mut self, _: &Card, phrase: Phrase) -> Result<Supply, Self::Error> {
///         let entropy = [0x95; ENTROPY_MAX_BYTES]; // a real host draws them at random, and wipes them
///         Ok(Supply::mnemonic(&entropy[..phrase.entropy_bytes()]).expect("its length is right"))
///     }
///     fn store(&mut self, _: &Card, record: &[u8]) -> Result<(), Self::Error> {
///         Ok(self.stored.push(record.to_vec())) // a real host writes, syncs, renames
///     }
/// }
///
/// let (mut card, mut host) = (Card::fresh(&[0x11; 16], &[0x04; 65]), Shelf::default());
/// let answer = card.serve(&mut host, PlainCommand::select().bytes())?;
/// assert_eq!((answer.data().len(), answer.status()), (2 + 65, StatusWord::SUCCESS));
///
/// let init = PlainCommand::init(&InitParts {
///     aes_key: &[0x81; 32],
///     point: &[0x04; 65],
///     iv: &[0x82; 16],
///     pin: b"024680",
///     puk: b"918273645546",
///     pairing_secret: &[0x51; 32],
/// });
/// assert_eq!(card.serve(&mut host, init.bytes())?.status(), StatusWord::SUCCESS);
///
/// // A record was stored for each answer, before it was given out.
/// let record_bytes: Vec<usize> = host.stored.iter().map(Vec::len).collect();
/// assert_eq!(record_bytes, [RECORD_FRESH_BYTES, RECORD_MIN_BYTES]);
/// assert_eq!(Card::read(&host.stored[1])?, card);
/// # Ok::<(), Box<dyn std::error::Error>>(())
/// ```
pub trait Host {
    /// Why the host cannot make a supply or store a record.
    type Error;

    /// INIT: the AES key, from the card's private key and the terminal's point, 65 bytes; [`Supply::init`] or [`Supply::no_init`].
    ///
    /// # Errors
    ///
    /// The host cannot do it; the same holds for each method below.
    fn init(&mut self, card: &Card, point: &[u8; PUBLIC_KEY_BYTES]) -> Result<Supply, Self::Error>;

    /// OPEN: the channel's keys, from the card's private key, the terminal's point, 65 bytes, and the pairing key of the slot with this
    /// index, which is filled; [`Supply::open`] or [`Supply::no_open`].
    ///
    /// # Errors
    ///
    /// As for [`init`](Host::init).
    fn open(&mut self, card: &Card, slot: u8, point: &[u8; PUBLIC_KEY_BYTES]) -> Result<Supply, Self::Error>;

    /// MUTUAL: 32 random bytes, [`Supply::mutual`]. The terminal's 32 bytes are not needed for it.
    ///
    /// # Errors
    ///
    /// As for [`init`](Host::init).
    fn mutual(&mut self, card: &Card, terminal_random: &[u8; KEY_BYTES]) -> Result<Supply, Self::Error>;

    /// PAIR's first step: the card's challenge, 32 random bytes, new each time; [`Supply::pair_first`]. The client's challenge, 32 bytes, is not
    /// needed for it: the card works out both cryptograms.
    ///
    /// # Errors
    ///
    /// As for [`init`](Host::init).
    fn pair_first(&mut self, card: &Card, client_challenge: &[u8; KEY_BYTES]) -> Result<Supply, Self::Error>;

    /// PAIR's final step: a salt, 32 random bytes, new each time; [`Supply::pair_final`]. The client's cryptogram, 32 bytes, was right, and is not
    /// needed for it: the card works out the pairing key.
    ///
    /// # Errors
    ///
    /// As for [`init`](Host::init).
    fn pair_final(&mut self, card: &Card, client_cryptogram: &[u8; KEY_BYTES]) -> Result<Supply, Self::Error>;

    /// LOAD: the public key of the loaded key, 65 bytes; [`Supply::load`] or [`Supply::no_load`]. Where one was sent with the key, a careful host
    /// compares it with its own. The card works out the key UID.
    ///
    /// The host keeps the new key **beside** the one that the card has: [`store`](Host::store) comes after it, and the old one goes only
    /// then. A host that has keys and record in one file keeps it in memory here, and stores both at once there.
    ///
    /// # Errors
    ///
    /// As for [`init`](Host::init).
    fn load(&mut self, card: &Card, key: LoadedKey<'_>) -> Result<Supply, Self::Error>;

    /// DERIVE: whether the path leads to a key; [`Supply::derive`] or [`Supply::no_derive`].
    ///
    /// # Errors
    ///
    /// As for [`init`](Host::init).
    fn derive(&mut self, card: &Card, path: &Path) -> Result<Supply, Self::Error>;

    /// SIGN: the signature of the hash, 32 bytes, by the key of [`card.current_path()`](Card::current_path), or by the plain key;
    /// [`Supply::sign`].
    ///
    /// # Errors
    ///
    /// As for [`init`](Host::init).
    fn sign(&mut self, card: &Card, hash: &[u8; HASH_BYTES]) -> Result<Supply, Self::Error>;

    /// EXPORT: the keys of the path, which is the command's, or the card's current one where the command asks for that;
    /// [`Supply::export`] or [`Supply::no_export`]. With [`ExportedKeys::Public`] no private key is read.
    ///
    /// # Errors
    ///
    /// As for [`init`](Host::init).
    fn export(&mut self, card: &Card, path: &Path, keys: ExportedKeys) -> Result<Supply, Self::Error>;

    /// GENERATE MNEMONIC: the entropy of a new recovery phrase, [`phrase.entropy_bytes()`](Phrase::entropy_bytes) random bytes;
    /// [`Supply::mnemonic`]. The card makes the numbers of the words of it, and keeps neither.
    ///
    /// Whoever can guess these bytes has the wallet. They come from the system's source of random numbers for keys and are new each time; the
    /// host keeps no copy and wipes its own. The supply is wiped when it is dropped.
    ///
    /// # Errors
    ///
    /// As for [`init`](Host::init).
    fn mnemonic(&mut self, card: &Card, phrase: Phrase) -> Result<Supply, Self::Error>;

    /// Stores the record of the card durably: when this comes back, the bytes outlast a power cut. It is called once for each answer, also where
    /// the record has not changed, and before the answer is given out. The record holds PIN, PUK and keys in the clear, and is wiped afterwards.
    ///
    /// `card` is the card of the record. Once it is stored, wallet keys other than that of [`card.key_uid()`](Card::key_uid) are to be deleted:
    /// LOAD has brought another, or REMOVE has removed it. The key UID is SHA-256 of the public key that [`load`](Host::load) gave.
    ///
    /// # Errors
    ///
    /// The record is not stored, or it is not known whether it is. The answer is then not given out, and the card is gone: see
    /// [`ServeError::NotStored`].
    fn store(&mut self, card: &Card, record: &[u8]) -> Result<(), Self::Error>;
}

/// Why [`Card::serve`] gives no answer. Nothing goes to the terminal then; for it the card has lost its power.
#[derive(Clone, Copy, PartialEq, Eq, Debug)]
#[non_exhaustive]
pub enum ServeError<E> {
    /// A call was refused: the card is not sound ([`Refusal::Unsound`]), or the host's supply is of another kind, or has not as much entropy as
    /// the phrase takes ([`Refusal::BadSupply`]). The card is as it was.
    Refused(Refusal),
    /// The host could not make the supply. The card is as it was.
    NotSupplied(E),
    /// The host could not store the record. **The card is gone**: it is overwritten, and every further call is refused with
    /// [`Refusal::Unsound`]. The host begins again with [`Card::read`] of the record that is stored.
    NotStored(E),
}

impl<E: fmt::Display> fmt::Display for ServeError<E> {
    fn fmt(&self, f: &mut fmt::Formatter<'_>) -> fmt::Result {
        match self {
            ServeError::Refused(refusal) => write!(f, "{refusal}"),
            ServeError::NotSupplied(why) => write!(f, "the supply was not made: {why}"),
            ServeError::NotStored(why) => write!(f, "the record was not stored: {why}"),
        }
    }
}

impl<E: Error + 'static> Error for ServeError<E> {
    fn source(&self) -> Option<&(dyn Error + 'static)> {
        match self {
            ServeError::Refused(refusal) => Some(refusal),
            ServeError::NotSupplied(why) | ServeError::NotStored(why) => Some(why),
        }
    }
}

impl<E> From<Refusal> for ServeError<E> {
    fn from(refusal: Refusal) -> Self {
        ServeError::Refused(refusal)
    }
}

impl Card {
    /// One command, from its arrival to its answer: ASK, the host's supply, ANSWER, WRITE, and the host stores the record. Only then is the answer
    /// given out, for the caller to send. So a wrong PIN has lost its try before anybody learns that it was wrong.
    ///
    /// [`Host`] has an example. The host's methods run inside: the thread needs [`STACK_WIPE_BYTES`] of stack below them.
    ///
    /// # Errors
    ///
    /// [`ServeError`] says why there is no answer, and what the card then is.
    pub fn serve<H: Host + ?Sized>(&mut self, host: &mut H, command: &[u8]) -> Result<Answer, ServeError<H::Error>> {
        wiped(|| {
            let supply = supply(self, host, command)?;
            let mut fault_offset = None;
            let answer = Buffer::written(|room| {
                let answered = self.answer(command, supply.bytes(), room)?;
                fault_offset = answered.fault_offset;
                Ok::<usize, Refusal>(answered.count)
            })?;
            let record: Buffer<WRITE_ROOM_BYTES> = Buffer::written(|room| self.write(room))?;
            match host.store(self, record.bytes()) {
                Ok(()) => Ok(Answer::of(answer, fault_offset)),
                Err(why) => {
                    self.end();
                    Err(ServeError::NotStored(why))
                }
            }
        })
    }
}

/// ASK, and the supply of the kind that it names.
fn supply<H: Host + ?Sized>(card: &Card, host: &mut H, command: &[u8]) -> Result<Supply, ServeError<H::Error>> {
    let mut kind = SupplyKind::None;
    let data: Buffer<ASK_ROOM_BYTES> = Buffer::written(|room| {
        let asked = card.ask(command, room)?;
        kind = asked.kind;
        Ok::<usize, Refusal>(asked.count)
    })?;
    if kind == SupplyKind::None {
        return Ok(Supply::none());
    }
    let supply = made(card, host, kind, command, data.bytes()).ok_or(Refusal::Unsound)?;
    let supply = supply.map_err(ServeError::NotSupplied)?;
    if supply.kind() == kind {
        Ok(supply)
    } else {
        Err(Refusal::BadSupply.into())
    }
}

/// The supply that the host makes from the opened data. None where they have not the length of their kind, or P1 is not one of its command: the
/// library is proved to hand out no others, so they would come from another library.
fn made<H: Host + ?Sized>(card: &Card, host: &mut H, kind: SupplyKind, command: &[u8], data: &[u8]) -> Option<Result<Supply, H::Error>> {
    let &[_, _, p1, p2] = command.first_chunk::<HEADER_BYTES>()?;
    Some(match kind {
        SupplyKind::None => Ok(Supply::none()),
        SupplyKind::Init => host.init(card, data.get(1..)?.first_chunk()?),
        SupplyKind::Open => host.open(card, p1, data.try_into().ok()?),
        SupplyKind::Mutual => host.mutual(card, data.try_into().ok()?),
        SupplyKind::PairFirst => host.pair_first(card, data.try_into().ok()?),
        SupplyKind::PairFinal => host.pair_final(card, data.try_into().ok()?),
        SupplyKind::Load => host.load(card, LoadedKey::of(p1, data)?),
        SupplyKind::Derive => host.derive(card, &Path::from_bytes(data)?),
        SupplyKind::Sign => host.sign(card, data.try_into().ok()?),
        SupplyKind::Export => {
            let keys = match p2 {
                P2_EXPORT_PRIVATE_AND_PUBLIC => ExportedKeys::PrivateAndPublic,
                _ => ExportedKeys::Public,
            };
            match p1 {
                P1_EXPORT_CURRENT => host.export(card, card.current_path(), keys),
                _ => host.export(card, &Path::from_bytes(data)?, keys),
            }
        }
        SupplyKind::Mnemonic => host.mnemonic(card, Phrase::from_checksum_bits(p1)?),
    })
}
