//! Parts of a card: pairing slots, paths, the tap record, the kind of its key and the stage of its channel.

use core::fmt;

use crate::lengths::{COMPONENT_BYTES, KEY_BYTES, PATH_MAX_BYTES, TAP_MAX_BYTES};

/// A pairing slot: whether it is filled, and its key. It is overwritten with zeros when it is dropped.
#[repr(C)]
pub struct Slot {
    filled: u8,
    key: [u8; KEY_BYTES],
}

impl Slot {
    /// Whether the slot is filled: its flag is 01.
    #[must_use]
    pub fn is_filled(&self) -> bool {
        self.filled == 1
    }

    /// The pairing key, which the host needs for OPEN's session keys; zero in a free slot of a sound card.
    #[must_use]
    pub fn pairing_key(&self) -> &[u8; KEY_BYTES] {
        &self.key
    }
}

/// Says whether the slot is filled, and nothing of its key.
impl fmt::Debug for Slot {
    fn fmt(&self, f: &mut fmt::Formatter<'_>) -> fmt::Result {
        f.debug_struct("Slot").field("filled", &self.is_filled()).finish_non_exhaustive()
    }
}

/// A path of key derivation: how many bytes are in use, 4 a component, and room for 10 components.
#[derive(Clone, PartialEq, Eq)]
#[repr(C)]
pub struct Path {
    used_bytes: u8,
    room: [u8; PATH_MAX_BYTES],
}

impl Path {
    /// The path of these components, from the master key on; none where they are over 10. No components are the master key itself.
    ///
    /// ```
    /// use treadlewisp::{Path, HARDENED};
    /// let path = Path::new(&[44 + HARDENED, 60 + HARDENED]).expect("at most 10 components"); // m/44'/60'
    /// assert_eq!(path.bytes(), [0x80, 0x00, 0x00, 0x2C, 0x80, 0x00, 0x00, 0x3C]);
    /// assert_eq!(Path::new(&[0; 11]), None);
    /// ```
    #[must_use]
    pub fn new(components: &[u32]) -> Option<Path> {
        let mut path = Path::empty();
        let room = path.room.chunks_exact_mut(COMPONENT_BYTES);
        if components.len() > room.len() {
            return None;
        }
        for (to, component) in room.zip(components) {
            to.copy_from_slice(&component.to_be_bytes());
            path.used_bytes += COMPONENT_BYTES as u8;
        }
        Some(path)
    }

    /// The path of these bytes, 4 a component, the high byte first; none where they are no multiple of 4, or over
    /// [`PATH_MAX_BYTES`].
    ///
    /// ```
    /// use treadlewisp::Path;
    /// let path = Path::from_bytes(&[0x80, 0x00, 0x00, 0x2C]).expect("a path");
    /// assert_eq!(path.components().collect::<Vec<_>>(), [0x8000_002C]);
    /// assert_eq!(Path::from_bytes(&[0x80, 0x00, 0x00]), None);
    /// ```
    #[must_use]
    pub fn from_bytes(bytes: &[u8]) -> Option<Path> {
        let mut path = Path::empty();
        path.room.get_mut(..bytes.len())?.copy_from_slice(bytes);
        path.used_bytes = bytes.len() as u8;
        (bytes.len() % COMPONENT_BYTES == 0).then_some(path)
    }

    /// The path of the master key.
    fn empty() -> Path {
        Path {
            used_bytes: 0,
            room: [0; PATH_MAX_BYTES],
        }
    }

    /// The bytes in use, 4 a component, the high byte first. Of a path that claims more than its room, which no sound card has, all of it.
    #[must_use]
    pub fn bytes(&self) -> &[u8] {
        self.room.get(..usize::from(self.used_bytes)).unwrap_or(&self.room)
    }

    /// Whether no byte is in use.
    #[must_use]
    pub fn is_empty(&self) -> bool {
        self.used_bytes == 0
    }

    /// The components, from the master key on.
    pub fn components(&self) -> impl Iterator<Item = u32> + '_ {
        self.bytes().chunks_exact(COMPONENT_BYTES).map(|component| {
            let bytes = component.first_chunk().copied().unwrap_or_default();
            u32::from_be_bytes(bytes)
        })
    }
}

/// The components in hexadecimal digits.
impl fmt::Debug for Path {
    fn fmt(&self, f: &mut fmt::Formatter<'_>) -> fmt::Result {
        f.debug_list().entries(self.components().map(Component)).finish()
    }
}

/// A component of a path, as `Path` shows it.
struct Component(u32);

impl fmt::Debug for Component {
    fn fmt(&self, f: &mut fmt::Formatter<'_>) -> fmt::Result {
        write!(f, "\"{:08X}\"", self.0)
    }
}

/// A card's own tap record, as SET NDEF stored it: how many bytes are in use, and room for the longest. It is no secret: any phone that the
/// card is held to may read it.
#[derive(Clone, PartialEq, Eq)]
#[repr(C)]
pub struct TapRecord {
    used_bytes: u8,
    room: [u8; TAP_MAX_BYTES],
}

impl TapRecord {
    /// The bytes in use: the first two, high byte first, count those after them. None where none was set. Of a tap record that claims more
    /// than its room, which no sound card has, all of it.
    #[must_use]
    pub fn bytes(&self) -> &[u8] {
        self.room.get(..usize::from(self.used_bytes)).unwrap_or(&self.room)
    }

    /// Whether none was set. Then a phone reads the factory's.
    #[must_use]
    pub fn is_empty(&self) -> bool {
        self.used_bytes == 0
    }
}

/// The bytes in use, in hexadecimal digits.
impl fmt::Debug for TapRecord {
    fn fmt(&self, f: &mut fmt::Formatter<'_>) -> fmt::Result {
        write!(f, "{:02X?}", self.bytes())
    }
}

/// The kind of a card's key.
#[derive(Clone, Copy, PartialEq, Eq, PartialOrd, Ord, Hash, Debug)]
#[repr(u8)]
pub enum KeyKind {
    /// No key.
    None = 0,
    /// A key without a chain code: it signs, and nothing is derived from it.
    Plain = 1,
    /// An extended key.
    Extended = 2,
}

impl KeyKind {
    /// The kind with this number, if it is 0, 1 or 2.
    #[must_use]
    pub const fn from_number(number: u8) -> Option<KeyKind> {
        match number {
            0 => Some(KeyKind::None),
            1 => Some(KeyKind::Plain),
            2 => Some(KeyKind::Extended),
            _ => None,
        }
    }
}

/// The stage of the secure channel.
#[derive(Clone, Copy, PartialEq, Eq, PartialOrd, Ord, Hash, Debug)]
#[repr(u8)]
pub enum Stage {
    /// No channel.
    Closed = 0,
    /// OPEN has been answered.
    Opened = 1,
    /// MUTUAL has been answered: both ends have shown that they hold the keys.
    Mutual = 2,
}

impl Stage {
    /// The stage with this number, if it is 0, 1 or 2.
    #[must_use]
    pub const fn from_number(number: u8) -> Option<Stage> {
        match number {
            0 => Some(Stage::Closed),
            1 => Some(Stage::Opened),
            2 => Some(Stage::Mutual),
            _ => None,
        }
    }
}
