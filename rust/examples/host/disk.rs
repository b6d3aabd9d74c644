//! A file that outlasts a power cut. What is in them is in the clear: a product enciphers it, and sees that no older one is put back.

use std::fs::{self, rename, File, OpenOptions};
use std::io::{self, Write};
use std::os::unix::fs::OpenOptionsExt;
use std::path::{Path, PathBuf};

/// For the owner alone.
const MODE: u32 = 0o600;

/// The file that a write makes first, and that takes the place of the old one when it is whole and on the disk.
pub fn unfinished(folder: &Path, name: &str) -> PathBuf {
    folder.join(format!("{name}.new"))
}

/// Writes a file of this name, durably and whole: after a power cut there is the old one or the new one.
pub fn write(folder: &Path, name: &str, bytes: &[u8]) -> io::Result<()> {
    let new = unfinished(folder, name);
    let mut file = OpenOptions::new().write(true).create(true).truncate(true).mode(MODE).open(&new)?;
    file.write_all(bytes)?;
    file.sync_all()?;
    rename(&new, folder.join(name))?;
    File::open(folder)?.sync_all()
}

/// The bytes of the file of this name, as `write` was given them.
pub fn read(folder: &Path, name: &str) -> io::Result<Vec<u8>> {
    fs::read(folder.join(name))
}
