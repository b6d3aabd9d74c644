//! Plain commands, one constructor for each: header, Lc and data.

use core::fmt;

use crate::buffer::Buffer;
use crate::command::*;
use crate::lengths::*;
use crate::refusal::Refusal;
use crate::secrets::wiped;
use crate::session::Session;

/// Length of INIT's ciphertext, in bytes: PIN, PUK and pairing secret with 14 bytes of padding.
const INIT_CIPHERTEXT_BYTES: usize = 64;
/// Length of Lc, in bytes.
const LC_BYTES: usize = 1;

// Padding adds at least one byte, up to the next multiple of 16.
const _: () = assert!((PIN_BYTES + PUK_BYTES + KEY_BYTES + 1).next_multiple_of(IV_BYTES) == INIT_CIPHERTEXT_BYTES);

/// A command as it goes over the wire: the four that are plain (SELECT, INIT, OPEN and PAIR), or what
/// [`ChannelCommand::seal`](crate::ChannelCommand::seal) has sealed.
///
/// ```
/// use treadlewisp::PlainCommand;
/// assert_eq!(PlainCommand::select().bytes(), b"\x00\xA4\x04\x00\x0FStatusWalletApp");
/// ```
#[must_use = "a command is there to be sent"]
pub struct PlainCommand {
    bytes: Buffer<SEAL_ROOM_BYTES>,
}

/// The parts of INIT, [`PlainCommand::init`].
#[derive(Clone, Copy)]
pub struct InitParts<'a> {
    /// The AES key, 32 bytes: the ECDH secret of the terminal's private key and the card's public key. It does not go out.
    pub aes_key: &'a [u8; KEY_BYTES],
    /// The terminal's public key, 65 bytes, of a key pair for this command alone.
    pub point: &'a [u8; PUBLIC_KEY_BYTES],
    /// The IV, 16 random bytes.
    pub iv: &'a [u8; IV_BYTES],
    /// The PIN, 6 digits.
    pub pin: &'a [u8; PIN_BYTES],
    /// The PUK, 12 digits.
    pub puk: &'a [u8; PUK_BYTES],
    /// The pairing secret, 32 bytes.
    pub pairing_secret: &'a [u8; KEY_BYTES],
}

/// One constructor for each plain command.
impl PlainCommand {
    /// SELECT, 20 bytes.
    pub fn select() -> PlainCommand {
        PlainCommand::of(&[CLASS_SELECT, SELECT, P1_SELECT, 0x00], &[APPLICATION_ID])
    }

    /// INIT, 151 bytes: point, IV, and PIN, PUK and pairing secret, enciphered here.
    ///
    /// ```
    /// use treadlewisp::{InitParts, PlainCommand};
    /// let command = PlainCommand::init(&InitParts {
    ///     aes_key: &[0x81; 32], // the x coordinate of the ECDH point, not hashed
    ///     point: &[0x04; 65],
    ///     iv: &[0x82; 16],
    ///     pin: b"024680",
    ///     puk: b"918273645546",
    ///     pairing_secret: &[0x51; 32],
    /// });
    /// assert_eq!(command.bytes()[..6], [0x80, 0xFE, 0x00, 0x00, 146, 0x41]);
    /// assert_eq!(command.bytes().len(), 5 + 1 + 65 + 16 + 64);
    /// ```
    pub fn init(parts: &InitParts) -> PlainCommand {
        wiped(|| {
            let point_head = [PUBLIC_KEY_BYTES as u8];
            let ciphertext = init_ciphertext(parts);
            PlainCommand::of(
                &[CLASS_CARD, INIT, 0x00, 0x00],
                &[&point_head, parts.point, parts.iv, ciphertext.bytes()],
            )
        })
    }

    /// PAIR's first step, 37 bytes: the client's challenge, 32 random bytes.
    ///
    /// ```
    /// use treadlewisp::PlainCommand;
    /// assert_eq!(PlainCommand::pair_first(&[0x0F; 32]).bytes(), [&[0x80, 0x12, 0x00, 0x00, 32][..], &[0x0F; 32]].concat());
    /// ```
    pub fn pair_first(client_challenge: &[u8; KEY_BYTES]) -> PlainCommand {
        PlainCommand::of(&[CLASS_CARD, PAIR, P1_PAIR_FIRST, 0x00], &[client_challenge])
    }

    /// PAIR's final step, 37 bytes: the client's cryptogram, 32 bytes.
    ///
    /// ```
    /// use treadlewisp::PlainCommand;
    /// assert_eq!(PlainCommand::pair_final(&[0x53; 32]).bytes(), [&[0x80, 0x12, 0x01, 0x00, 32][..], &[0x53; 32]].concat());
    /// ```
    pub fn pair_final(client_cryptogram: &[u8; KEY_BYTES]) -> PlainCommand {
        PlainCommand::of(&[CLASS_CARD, PAIR, P1_PAIR_FINAL, 0x00], &[client_cryptogram])
    }

    /// OPEN, 70 bytes: the slot's index, 0 to 7, and the terminal's public key, 65 bytes, of a key pair for this command alone.
    ///
    /// ```
    /// use treadlewisp::PlainCommand;
    /// assert_eq!(PlainCommand::open(7, &[0x04; 65]).bytes(), [&[0x80, 0x10, 0x07, 0x00, 65][..], &[0x04; 65]].concat());
    /// ```
    pub fn open(slot: u8, point: &[u8; PUBLIC_KEY_BYTES]) -> PlainCommand {
        PlainCommand::of(&[CLASS_CARD, OPEN, slot, 0x00], &[point])
    }

    /// Any command: the header CLA INS P1 P2 and, unless there are no data, Lc and the data. It is sent as it is: what is secret goes into a
    /// [`ChannelCommand`](crate::ChannelCommand).
    ///
    /// # Errors
    ///
    /// [`Refusal::TooLong`] where there are more data than [`PLAIN_DATA_MAX_BYTES`].
    ///
    /// ```
    /// use treadlewisp::{PlainCommand, Refusal};
    /// assert_eq!(PlainCommand::new(&[0x80, 0xF2, 0x00, 0x00], &[])?.bytes(), [0x80, 0xF2, 0x00, 0x00]);
    /// assert_eq!(PlainCommand::new(&[0x80, 0xFE, 0x00, 0x00], &[0; 256]).err(), Some(Refusal::TooLong));
    /// # Ok::<(), Refusal>(())
    /// ```
    pub fn new(header: &[u8; HEADER_BYTES], data: &[u8]) -> Result<PlainCommand, Refusal> {
        match data.len() {
            0..=PLAIN_DATA_MAX_BYTES => Ok(PlainCommand::of(header, &[data])),
            _ => Err(Refusal::TooLong),
        }
    }

    /// What SEAL wrote.
    pub(crate) fn sealed(bytes: Buffer<SEAL_ROOM_BYTES>) -> PlainCommand {
        PlainCommand { bytes }
    }

    /// Header, Lc and up to four parts of data, at most 255 bytes; the header alone where there are no data.
    fn of(header: &[u8; HEADER_BYTES], data: &[&[u8]]) -> PlainCommand {
        let data_bytes = data.iter().map(|part| part.len()).sum::<usize>();
        let lc: &[u8] = if data_bytes == 0 { &[] } else { &[data_bytes as u8] };
        let part = |at: usize| data.get(at).copied().unwrap_or(&[]);
        let bytes = Buffer::joined(&[header, lc, part(0), part(1), part(2), part(3)]);
        PlainCommand {
            bytes: bytes.unwrap_or(Buffer::new()),
        }
    }

    /// The bytes to send.
    #[must_use]
    pub fn bytes(&self) -> &[u8] {
        self.bytes.bytes()
    }
}

/// AES-256 CBC of PIN, PUK, pairing secret and padding, under INIT's own key and IV. SEAL enciphers and pads in just this way, so it is done by
/// a session that is used for nothing else; its MAC is left out.
fn init_ciphertext(parts: &InitParts) -> Buffer<INIT_CIPHERTEXT_BYTES> {
    const CIPHERTEXT_AT: usize = HEADER_BYTES + LC_BYTES + MAC_BYTES;
    let content: Option<Buffer<DATA_MAX_BYTES>> = Buffer::joined(&[parts.pin, parts.puk, parts.pairing_secret]);
    let mut session = Session::new(parts.aes_key, &[0; KEY_BYTES], parts.iv);
    let sealed: Result<Buffer<SEAL_ROOM_BYTES>, Refusal> = Buffer::written(|room| {
        let data = content.as_ref().map_or(&[][..], Buffer::bytes);
        session.seal(&[0; HEADER_BYTES], data, room)
    });
    let ciphertext = sealed
        .ok()
        .and_then(|sealed| Buffer::joined(&[sealed.bytes().get(CIPHERTEXT_AT..)?]));
    ciphertext.unwrap_or(Buffer::new())
}

/// The bytes, in hexadecimal digits: they are for all to see.
impl fmt::Debug for PlainCommand {
    fn fmt(&self, f: &mut fmt::Formatter<'_>) -> fmt::Result {
        write!(f, "PlainCommand({:02X?})", self.bytes())
    }
}
