//! The terminal's end of the secure channel.

use core::fmt;
use core::mem::{align_of, offset_of, size_of};

use crate::ffi;
use crate::lengths::{HEADER_BYTES, IV_BYTES, KEY_BYTES, SESSION_BYTES};
use crate::refusal::Refusal;
use crate::secrets::{wiped, Record};

/// The terminal's session: encryption key, MAC key, and the IV of the next message. As `include/treadlewisp.h` has them; any keys and
/// IV are a session. It is overwritten with zeros when it is dropped, and `Debug` shows no key.
#[repr(C)]
pub struct Session {
    enc_key: [u8; KEY_BYTES],
    mac_key: [u8; KEY_BYTES],
    iv: [u8; IV_BYTES],
}

const _: () = assert!(size_of::<Session>() == SESSION_BYTES && align_of::<Session>() == 1);
const _: () = assert!(offset_of!(Session, mac_key) == KEY_BYTES && offset_of!(Session, iv) == 2 * KEY_BYTES);

impl Session {
    /// The session that OPEN begins, with its seed IV.
    #[must_use]
    pub fn new(enc_key: &[u8; KEY_BYTES], mac_key: &[u8; KEY_BYTES], iv: &[u8; IV_BYTES]) -> Session {
        wiped(|| Session {
            enc_key: *enc_key,
            mac_key: *mac_key,
            iv: *iv,
        })
    }

    /// SEAL: the whole sealed command from the buffer's start, and its length in bytes; the session becomes the next one. The header is CLA
    /// INS P1 P2. Bytes past the count are never touched.
    ///
    /// # Errors
    ///
    /// [`Refusal::Room`] where the buffer is under [`SEAL_ROOM_BYTES`](crate::SEAL_ROOM_BYTES), or [`Refusal::TooLong`] where there are more
    /// data than [`DATA_MAX_BYTES`](crate::DATA_MAX_BYTES); session and buffer are then as they were.
    ///
    /// ```
    /// use treadlewisp::{Refusal, Session, SEAL_ROOM_BYTES};
    /// let mut session = Session::new(&[0x22; 32], &[0x33; 32], &[0x44; 16]);
    /// let mut buffer = [0; SEAL_ROOM_BYTES];
    /// let count = session.seal(&[0x80, 0x20, 0x00, 0x00], b"123456", &mut buffer)?;
    /// assert_eq!(count, 4 + 1 + 16 + 16);
    /// assert_eq!(session.iv()[..], buffer[5..21]);
    /// # Ok::<(), Refusal>(())
    /// ```
    pub fn seal(&mut self, header: &[u8; HEADER_BYTES], data: &[u8], buffer: &mut [u8]) -> Result<usize, Refusal> {
        wiped(|| ffi::seal(self, header, data, buffer))
    }

    /// UNSEAL: a response's plaintext, inner status word included, from the buffer's start, and its length in bytes; the session becomes
    /// the next one.
    ///
    /// Lr, in the response's MAC, counts MAC and ciphertext, in bytes. Cards of version 0.1.0 left the MAC out: their sealed responses are not
    /// genuine here. Bytes past the count are never touched. [`exchange`](Session::exchange) does SEAL and UNSEAL around what carries the bytes.
    ///
    /// # Errors
    ///
    /// [`Refusal::Room`] where the buffer is under [`UNSEAL_ROOM_BYTES`](crate::UNSEAL_ROOM_BYTES), or [`Refusal::NotGenuine`]; session and
    /// buffer are then as they were.
    pub fn unseal(&mut self, response: &[u8], buffer: &mut [u8]) -> Result<usize, Refusal> {
        wiped(|| ffi::unseal(self, response, buffer))
    }

    /// The session of these bytes.
    #[must_use]
    pub fn from_bytes(bytes: &[u8; SESSION_BYTES]) -> Session {
        wiped(|| Session::of(bytes))
    }

    /// The session's bytes, both keys among them. They are the caller's to [`wipe`](crate::wipe).
    #[must_use]
    pub fn to_bytes(&self) -> [u8; SESSION_BYTES] {
        wiped(|| *self.bytes())
    }

    /// The IV of the next message: the seed IV, then the MAC of the latest message. It is no secret.
    #[must_use]
    pub fn iv(&self) -> &[u8; IV_BYTES] {
        &self.iv
    }
}

/// No key is shown.
impl fmt::Debug for Session {
    fn fmt(&self, f: &mut fmt::Formatter<'_>) -> fmt::Result {
        f.debug_struct("Session")
            .field("iv", &format_args!("{:02X?}", self.iv))
            .finish_non_exhaustive()
    }
}
