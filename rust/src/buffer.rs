//! Bytes whose number is known only when the program runs, in room for the most there can be: nothing is allocated.

use crate::secrets::wipe;

/// So many bytes from the room's start are in use, and all others are zero. The whole room is overwritten with zeros when it is dropped.
pub(crate) struct Buffer<const ROOM_BYTES: usize> {
    used_bytes: usize,
    room: [u8; ROOM_BYTES],
}

impl<const ROOM_BYTES: usize> Buffer<ROOM_BYTES> {
    /// No bytes.
    pub(crate) const fn new() -> Self {
        Buffer {
            used_bytes: 0,
            room: [0; ROOM_BYTES],
        }
    }

    /// The parts, joined; none where they are longer than the room.
    pub(crate) fn joined(parts: &[&[u8]]) -> Option<Self> {
        let mut buffer = Buffer::new();
        for part in parts {
            let end = buffer.used_bytes + part.len();
            buffer.room.get_mut(buffer.used_bytes..end)?.copy_from_slice(part);
            buffer.used_bytes = end;
        }
        Some(buffer)
    }

    /// What a call writes from the room's start; it gives their number.
    pub(crate) fn written<E>(call: impl FnOnce(&mut [u8]) -> Result<usize, E>) -> Result<Self, E> {
        let mut buffer = Buffer::new();
        buffer.used_bytes = call(&mut buffer.room)?;
        Ok(buffer)
    }

    /// The bytes in use.
    pub(crate) fn bytes(&self) -> &[u8] {
        self.room.get(..self.used_bytes).unwrap_or(&self.room)
    }
}

/// Every byte is overwritten with zero.
impl<const ROOM_BYTES: usize> Drop for Buffer<ROOM_BYTES> {
    fn drop(&mut self) {
        wipe(&mut self.room);
    }
}
