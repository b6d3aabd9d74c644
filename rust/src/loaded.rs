//! The key that LOAD brings, as the terminal sends it and as the host gets it.

use crate::buffer::Buffer;
use crate::command::{P1_LOAD_EXTENDED, P1_LOAD_PLAIN, P1_LOAD_SEED};
use crate::lengths::{DATA_MAX_BYTES, KEY_BYTES, PUBLIC_KEY_BYTES, SEED_BYTES};

/// The key that LOAD brings. A public key may stand beside the private one; the engine does not look at it.
///
/// The terminal sends it with [`ChannelCommand::load`](crate::ChannelCommand::load), and the host gets it in [`Host::load`](crate::Host::load).
#[derive(Clone, Copy)]
pub enum LoadedKey<'a> {
    /// A key without a chain code: it signs, and nothing is derived from it.
    Plain {
        /// The private key, 32 bytes.
        private_key: &'a [u8; KEY_BYTES],
        /// The public key, 65 bytes, if it was sent.
        public_key: Option<&'a [u8; PUBLIC_KEY_BYTES]>,
    },
    /// An extended key, from which others are derived.
    Extended {
        /// The private key, 32 bytes.
        private_key: &'a [u8; KEY_BYTES],
        /// The chain code, 32 bytes.
        chain_code: &'a [u8; KEY_BYTES],
        /// The public key, 65 bytes, if it was sent.
        public_key: Option<&'a [u8; PUBLIC_KEY_BYTES]>,
    },
    /// A seed of BIP 39, 64 bytes, which gives an extended key.
    Seed(&'a [u8; SEED_BYTES]),
}

/// A field's tag and length.
type Head = [u8; HEAD_BYTES];
/// Length of a field's tag and length, in bytes.
const HEAD_BYTES: usize = 2;

/// The fields of the template A1.
const PUBLIC_KEY_HEAD: Head = [0x80, PUBLIC_KEY_BYTES as u8];
const PRIVATE_KEY_HEAD: Head = [0x81, KEY_BYTES as u8];
const CHAIN_CODE_HEAD: Head = [0x82, KEY_BYTES as u8];
const TEMPLATE_TAG: u8 = 0xA1;
/// A length of 128 to 255 bytes is written as this byte and the length.
const LENGTH_OF_ONE_BYTE: u8 = 0x81;
const SHORT_LENGTH_MAX_BYTES: usize = 0x7F;

/// Lengths of the fields, in bytes.
const PUBLIC_KEY_FIELD_BYTES: usize = HEAD_BYTES + PUBLIC_KEY_BYTES;
const KEY_FIELD_BYTES: usize = HEAD_BYTES + KEY_BYTES;

impl<'a> LoadedKey<'a> {
    /// P1 of LOAD for it.
    pub(crate) fn p1(&self) -> u8 {
        match self {
            LoadedKey::Plain { .. } => P1_LOAD_PLAIN,
            LoadedKey::Extended { .. } => P1_LOAD_EXTENDED,
            LoadedKey::Seed(_) => P1_LOAD_SEED,
        }
    }

    /// LOAD's data for it, 36, 64, 70, 103 or 138 bytes.
    pub(crate) fn data(&self) -> Buffer<DATA_MAX_BYTES> {
        let (private_key, chain_code, public_key) = match *self {
            LoadedKey::Plain { private_key, public_key } => (private_key, None, public_key),
            LoadedKey::Extended {
                private_key,
                chain_code,
                public_key,
            } => (private_key, Some(chain_code), public_key),
            LoadedKey::Seed(seed) => return Buffer::joined(&[seed]).unwrap_or(Buffer::new()),
        };
        let none: [&[u8]; 2] = [&[], &[]];
        let [public_head, public] = public_key.map_or(none, |key| [&PUBLIC_KEY_HEAD[..], &key[..]]);
        let [chain_head, chain] = chain_code.map_or(none, |code| [&CHAIN_CODE_HEAD[..], &code[..]]);
        let parts = [public_head, public, &PRIVATE_KEY_HEAD, private_key, chain_head, chain];
        let content_bytes = parts.iter().map(|part| part.len()).sum::<usize>();
        let long: &[u8] = if content_bytes > SHORT_LENGTH_MAX_BYTES {
            &[LENGTH_OF_ONE_BYTE]
        } else {
            &[]
        };
        let [a, b, c, d, e, f] = parts;
        Buffer::joined(&[&[TEMPLATE_TAG], long, &[content_bytes as u8], a, b, c, d, e, f]).unwrap_or(Buffer::new())
    }

    /// The key in LOAD's data, as ASK hands them out; none where they are not of a form that ASK hands out.
    pub(crate) fn of(p1: u8, data: &'a [u8]) -> Option<LoadedKey<'a>> {
        if p1 == P1_LOAD_SEED {
            return data.try_into().ok().map(LoadedKey::Seed);
        }
        let is_long = data.get(1) == Some(&LENGTH_OF_ONE_BYTE);
        let content = data.get(HEAD_BYTES + usize::from(is_long)..)?;
        let (public_key, rest) = match content.strip_prefix(&PUBLIC_KEY_HEAD) {
            Some(_) => (content.get(HEAD_BYTES..)?.first_chunk(), content.get(PUBLIC_KEY_FIELD_BYTES..)?),
            None => (None, content),
        };
        let private_key = rest.get(HEAD_BYTES..)?.first_chunk()?;
        let chain_code = rest.get(KEY_FIELD_BYTES + HEAD_BYTES..).and_then(|chain| chain.first_chunk());
        match (p1, chain_code) {
            (P1_LOAD_PLAIN, None) => Some(LoadedKey::Plain { private_key, public_key }),
            (P1_LOAD_EXTENDED, Some(chain_code)) => Some(LoadedKey::Extended {
                private_key,
                chain_code,
                public_key,
            }),
            _ => None,
        }
    }
}
