//! Commands over the channel, one constructor for each: header and data, which are sealed before they are sent.

use core::fmt;

use crate::buffer::Buffer;
use crate::command::*;
use crate::lengths::*;
use crate::loaded::LoadedKey;
use crate::parts::Path;
use crate::phrase::Phrase;
use crate::plain_command::PlainCommand;
use crate::refusal::Refusal;
use crate::secrets::wiped;
use crate::session::Session;

/// A command that goes over the channel: header and data. It has no bytes to send before it is sealed, by [`seal`](ChannelCommand::seal) or
/// [`Session::exchange`]. So a PIN or a key in it is not sent in the clear by mistake.
///
/// The data may be a PIN or a key: they are overwritten with zeros when the command is dropped, and `Debug` shows the header alone.
///
/// ```
/// use treadlewisp::{ChannelCommand, Path, Refusal, Session, HARDENED};
/// let mut session = Session::new(&[0x22; 32], &[0x33; 32], &[0x44; 16]);
/// let verify = ChannelCommand::verify(b"123456");
/// assert_eq!((verify.header(), verify.data()), (&[0x80, 0x20, 0x00, 0x00], &b"123456"[..]));
/// let sealed = verify.seal(&mut session)?;
/// assert_eq!(sealed.bytes().len(), 4 + 1 + 16 + 16); // header, Lc, MAC, ciphertext
///
/// let path = Path::new(&[44 + HARDENED, 60 + HARDENED]).expect("at most 10 components");
/// assert_eq!(ChannelCommand::derive(&path).data(), path.bytes());
/// # Ok::<(), Refusal>(())
/// ```
#[must_use = "a command is there to be sealed and sent"]
pub struct ChannelCommand {
    header: [u8; HEADER_BYTES],
    data: Buffer<DATA_MAX_BYTES>,
}

/// What EXPORT hands out: its P2.
#[derive(Clone, Copy, PartialEq, Eq, Debug)]
#[repr(u8)]
pub enum ExportedKeys {
    /// Private and public key. Only paths that begin with [`EIP1581_PATH`] have this.
    PrivateAndPublic = P2_EXPORT_PRIVATE_AND_PUBLIC,
    /// The public key alone.
    Public = P2_EXPORT_PUBLIC_ONLY,
}

/// One constructor for each command over the channel.
impl ChannelCommand {
    /// MUTUAL: 32 random bytes. It comes directly after OPEN.
    pub fn mutual(random: &[u8; KEY_BYTES]) -> ChannelCommand {
        ChannelCommand::of(MUTUAL, 0x00, &[random])
    }

    /// UNPAIR: the slot's index, 0 to 7.
    pub fn unpair(slot: u8) -> ChannelCommand {
        ChannelCommand::of(UNPAIR, slot, &[])
    }

    /// GET STATUS for the tries left, and whether there is a key.
    pub fn status_tries() -> ChannelCommand {
        ChannelCommand::of(GET_STATUS, P1_STATUS_TRIES, &[])
    }

    /// GET STATUS for the current path.
    pub fn status_path() -> ChannelCommand {
        ChannelCommand::of(GET_STATUS, P1_STATUS_PATH, &[])
    }

    /// VERIFY: the PIN, 6 digits.
    pub fn verify(pin: &[u8; PIN_BYTES]) -> ChannelCommand {
        ChannelCommand::of(VERIFY, 0x00, &[pin])
    }

    /// CHANGE: a new PIN, 6 digits.
    pub fn change_pin(new_pin: &[u8; PIN_BYTES]) -> ChannelCommand {
        ChannelCommand::of(CHANGE, P1_CHANGE_PIN, &[new_pin])
    }

    /// CHANGE: a new PUK, 12 digits.
    pub fn change_puk(new_puk: &[u8; PUK_BYTES]) -> ChannelCommand {
        ChannelCommand::of(CHANGE, P1_CHANGE_PUK, &[new_puk])
    }

    /// CHANGE: a new pairing secret, 32 bytes.
    pub fn change_secret(new_secret: &[u8; KEY_BYTES]) -> ChannelCommand {
        ChannelCommand::of(CHANGE, P1_CHANGE_SECRET, &[new_secret])
    }

    /// UNBLOCK: the PUK, 12 digits, and a new PIN, 6 digits.
    pub fn unblock(puk: &[u8; PUK_BYTES], new_pin: &[u8; PIN_BYTES]) -> ChannelCommand {
        ChannelCommand::of(UNBLOCK, 0x00, &[puk, new_pin])
    }

    /// LOAD: a key or a seed; the data have 36, 64, 70, 103 or 138 bytes.
    ///
    /// ```
    /// use treadlewisp::{ChannelCommand, LoadedKey};
    /// let seed = ChannelCommand::load(&LoadedKey::Seed(&[0x5E; 64]));
    /// assert_eq!((seed.header(), seed.data()), (&[0x80, 0xD0, 0x03, 0x00], &[0x5E; 64][..]));
    /// let plain = ChannelCommand::load(&LoadedKey::Plain { private_key: &[0x72; 32], public_key: None });
    /// assert_eq!(plain.data(), [&[0xA1, 34, 0x81, 32][..], &[0x72; 32]].concat());
    /// ```
    pub fn load(key: &LoadedKey) -> ChannelCommand {
        wiped(|| ChannelCommand {
            header: [CLASS_CARD, LOAD, key.p1(), 0x00],
            data: key.data(),
        })
    }

    /// DERIVE: the path that is to be current.
    pub fn derive(path: &Path) -> ChannelCommand {
        ChannelCommand::of(DERIVE, 0x00, &[path.bytes()])
    }

    /// REMOVE: the card has no key then.
    pub fn remove() -> ChannelCommand {
        ChannelCommand::of(REMOVE, 0x00, &[])
    }

    /// SET PIN-LESS PATH: the path for which SIGN needs no PIN; the empty path means none.
    pub fn set_pinless_path(path: &Path) -> ChannelCommand {
        ChannelCommand::of(SET_PINLESS_PATH, 0x00, &[path.bytes()])
    }

    /// SIGN: the hash to sign, 32 bytes.
    pub fn sign(hash: &[u8; HASH_BYTES]) -> ChannelCommand {
        ChannelCommand::of(SIGN, 0x00, &[hash])
    }

    /// EXPORT of the current path.
    pub fn export_current(keys: ExportedKeys) -> ChannelCommand {
        ChannelCommand::of_export(P1_EXPORT_CURRENT, keys, &[])
    }

    /// EXPORT of this path; the current path stays.
    ///
    /// ```
    /// use treadlewisp::{command::EIP1581_PATH, ChannelCommand, ExportedKeys, Path};
    /// let path = Path::from_bytes(&EIP1581_PATH).expect("a path");
    /// let command = ChannelCommand::export(&path, ExportedKeys::Public);
    /// assert_eq!((command.header(), command.data()), (&[0x80, 0xC2, 0x01, 0x01], path.bytes()));
    /// ```
    pub fn export(path: &Path, keys: ExportedKeys) -> ChannelCommand {
        ChannelCommand::of_export(P1_EXPORT_DERIVE, keys, path.bytes())
    }

    /// EXPORT of this path, which is the current one after 9000.
    pub fn export_and_make_current(path: &Path, keys: ExportedKeys) -> ChannelCommand {
        ChannelCommand::of_export(P1_EXPORT_DERIVE_AND_MAKE_CURRENT, keys, path.bytes())
    }

    /// SET NDEF: the message, 0 to 221 bytes; its length, two bytes, is put before it.
    ///
    /// # Errors
    ///
    /// [`Refusal::TooLong`] where the message has over 221 bytes.
    ///
    /// ```
    /// use treadlewisp::{ChannelCommand, Refusal};
    /// let command = ChannelCommand::set_ndef(&[0xD0, 0x00, 0x00])?;
    /// assert_eq!(command.data(), [0x00, 0x03, 0xD0, 0x00, 0x00]);
    /// assert_eq!(ChannelCommand::set_ndef(&[0; 222]).err(), Some(Refusal::TooLong));
    /// # Ok::<(), Refusal>(())
    /// ```
    pub fn set_ndef(message: &[u8]) -> Result<ChannelCommand, Refusal> {
        let count = u16::try_from(message.len()).map_err(|_| Refusal::TooLong)?;
        ChannelCommand::joined([CLASS_CARD, SET_NDEF, 0x00, 0x00], &[&count.to_be_bytes(), message])
    }

    /// GENERATE MNEMONIC: the numbers of the words of a new recovery phrase; there are no data. [`command::GENERATE_MNEMONIC`](GENERATE_MNEMONIC)
    /// has an example.
    ///
    /// ```
    /// use treadlewisp::{ChannelCommand, Phrase};
    /// let command = ChannelCommand::generate_mnemonic(Phrase::Words24);
    /// assert_eq!((command.header(), command.data()), (&[0x80, 0xD2, 0x08, 0x00], &[][..]));
    /// ```
    pub fn generate_mnemonic(phrase: Phrase) -> ChannelCommand {
        ChannelCommand::of(GENERATE_MNEMONIC, phrase.checksum_bits(), &[])
    }

    /// Any command: the header CLA INS P1 P2, and data.
    ///
    /// # Errors
    ///
    /// [`Refusal::TooLong`] where there are more data than [`DATA_MAX_BYTES`], as SEAL refuses it.
    ///
    /// ```
    /// use treadlewisp::{ChannelCommand, Refusal};
    /// assert_eq!(ChannelCommand::new(&[0x80, 0x20, 0x00, 0x00], b"12345")?.data(), b"12345");
    /// assert_eq!(ChannelCommand::new(&[0x80, 0x20, 0x00, 0x00], &[0; 224]).err(), Some(Refusal::TooLong));
    /// # Ok::<(), Refusal>(())
    /// ```
    pub fn new(header: &[u8; HEADER_BYTES], data: &[u8]) -> Result<ChannelCommand, Refusal> {
        ChannelCommand::joined(*header, &[data])
    }

    fn joined(header: [u8; HEADER_BYTES], data: &[&[u8]]) -> Result<ChannelCommand, Refusal> {
        wiped(|| {
            let data = Buffer::joined(data).ok_or(Refusal::TooLong)?;
            Ok(ChannelCommand { header, data })
        })
    }

    /// Of parts that are together at most 223 bytes.
    fn of(instruction: u8, p1: u8, data: &[&[u8]]) -> ChannelCommand {
        wiped(|| ChannelCommand {
            header: [CLASS_CARD, instruction, p1, 0x00],
            data: Buffer::joined(data).unwrap_or(Buffer::new()),
        })
    }

    fn of_export(p1: u8, keys: ExportedKeys, path: &[u8]) -> ChannelCommand {
        let mut command = ChannelCommand::of(EXPORT, p1, &[path]);
        command.header = [CLASS_CARD, EXPORT, p1, keys as u8];
        command
    }
}

impl ChannelCommand {
    /// The header, CLA INS P1 P2.
    #[must_use]
    pub fn header(&self) -> &[u8; HEADER_BYTES] {
        &self.header
    }

    /// The data, at most [`DATA_MAX_BYTES`].
    #[must_use]
    pub fn data(&self) -> &[u8] {
        self.data.bytes()
    }

    /// SEAL: the command as it goes over the wire, 37 to 245 bytes; the session becomes the next one.
    ///
    /// # Errors
    ///
    /// What [`Session::seal`] is refused with. Room and data are as it asks for, so it is not refused.
    pub fn seal(&self, session: &mut Session) -> Result<PlainCommand, Refusal> {
        Buffer::written(|room| session.seal(&self.header, self.data(), room)).map(PlainCommand::sealed)
    }
}

/// The header alone.
impl fmt::Debug for ChannelCommand {
    fn fmt(&self, f: &mut fmt::Formatter<'_>) -> fmt::Result {
        f.debug_struct("ChannelCommand")
            .field("header", &format_args!("{:02X?}", self.header))
            .finish_non_exhaustive()
    }
}
