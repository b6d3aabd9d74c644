//! The card's file: what the host stores, between a mark that says what it is and a SHA-256 that says whether it is whole. Lengths are in bytes.
//!
//! ```text
//! offset  | 0        | 8           | 8 + n
//! file    | mark (8) | content (n) | SHA-256 of all before it (32)
//! ```
//!
//! The content is the host's: three keys of 32 bytes and the stored record (keeper.rs). Keys and record are one file and one rename, so they always
//! belong together. The SHA-256 shows damage; it is no protection against somebody who may write the file.

use std::io;
use std::path::Path;

use treadlewisp::{wipe, KEY_BYTES};

use crate::crypto::sha256;

#[path = "../../rust/examples/host/disk.rs"]
mod file;

pub use file::unfinished;

/// What the file begins with, with the number of its form.
const MARK: &[u8; 8] = b"TWCARD01";

/// Writes the content durably and whole: after a power cut there is the old file or the new one.
pub fn write(folder: &Path, name: &str, content: &[u8]) -> io::Result<()> {
    let mut bytes = [&MARK[..], content, &sha256(&[MARK, content])].concat();
    let written = file::write(folder, name, &bytes);
    wipe(&mut bytes);
    written
}

/// The content of a whole file.
pub fn read(folder: &Path, name: &str) -> io::Result<Vec<u8>> {
    let mut bytes = file::read(folder, name)?;
    let content = content_of(&bytes).map(<[u8]>::to_vec);
    wipe(&mut bytes);
    content.map_err(|why| io::Error::new(io::ErrorKind::InvalidData, why))
}

fn content_of(bytes: &[u8]) -> Result<&[u8], &'static str> {
    let (marked, hash) = bytes.split_last_chunk::<KEY_BYTES>().ok_or("it is too short")?;
    let content = marked.strip_prefix(MARK).ok_or("it is no card of this program")?;
    match sha256(&[marked]) == *hash {
        true => Ok(content),
        false => Err("its SHA-256 is not that of its bytes"),
    }
}
