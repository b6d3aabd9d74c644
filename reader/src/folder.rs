//! The card's folder: one process has it, its owner alone can read it, and the card in it is whole or is not used. Lengths are in bytes.

use std::fs::{self, DirBuilder, File, TryLockError};
use std::io;
use std::os::unix::fs::{DirBuilderExt, MetadataExt};
use std::path::{Path, PathBuf};

use treadlewisp::{Card, KeyKind};

use crate::device::Device;
use crate::disk;
use crate::keeper::CARD_FILE;
use crate::keycard::key_uid;
use crate::Outcome;

/// The owner alone.
const MODE: u32 = 0o700;
/// The bits of a mode that are for others than the owner.
const OTHERS: u32 = 0o077;

/// A folder that this process has for itself.
pub struct Folder {
    path: PathBuf,
    /// Locked as long as it is open; the system gives it free when the process ends, however it ends.
    _lock: File,
}

impl Folder {
    /// Makes the folder where it is not there, and locks it.
    pub fn take(path: PathBuf) -> Outcome<Folder> {
        let shown = path.display();
        made(&path).map_err(|why| format!("the folder {shown} cannot be made: {why}"))?;
        let lock = File::open(&path).map_err(|why| format!("the folder {shown} cannot be opened: {why}"))?;
        let mode = lock.metadata()?.mode();
        if mode & OTHERS != 0 {
            let mode = mode & 0o777;
            let what = format!("the folder {shown} is open to others than its owner (mode {mode:o})");
            return Err(format!("{what}; a card's keys would be too. Name another, or: chmod 700 {shown}").into());
        }
        match lock.try_lock() {
            Ok(()) => {}
            Err(TryLockError::WouldBlock) => return Err(format!("another process has the card in {shown}").into()),
            Err(TryLockError::Error(why)) => return Err(format!("the folder {shown} cannot be locked: {why}").into()),
        }
        Ok(Folder { path, _lock: lock })
    }

    /// The card in the folder; a new one where there is none. One that is damaged stays on the disk as it is.
    pub fn card(&self) -> Outcome<Device> {
        // What a power cut has left of a write that was not finished; nobody has got an answer for it.
        match fs::remove_file(disk::unfinished(&self.path, CARD_FILE)) {
            Err(why) if why.kind() != io::ErrorKind::NotFound => return Err(why.into()),
            _ => {}
        }
        let file = self.path.join(CARD_FILE);
        let device = match Device::start(self.path.clone()) {
            Err(why) if why.kind() == io::ErrorKind::NotFound => return Ok(Device::make(self.path.clone())?),
            Err(why) => Err(why.to_string()),
            Ok(device) if !belong_together(&device) => Err("its keys are not those of its record".into()),
            Ok(device) => Ok(device),
        };
        device.map_err(|why| format!("the card in {} cannot be used: {why}. The file stays as it is", file.display()).into())
    }
}

/// Makes the folder and those above it, where they are not there. Each is on the disk before the card: the folder that it is named in is synced.
fn made(folder: &Path) -> io::Result<()> {
    let missing: Vec<&Path> = folder
        .ancestors()
        .take_while(|each| !each.as_os_str().is_empty() && !each.exists())
        .collect();
    DirBuilder::new().recursive(true).mode(MODE).create(folder)?;
    for each in missing {
        let above = each.parent().filter(|above| !above.as_os_str().is_empty());
        File::open(above.unwrap_or(Path::new(".")))?.sync_all()?;
    }
    Ok(())
}

/// Whether the host's keys are those that the record names: the card's own by its public key, and the wallet's by its UID.
fn belong_together(device: &Device) -> bool {
    let (card, host) = (&device.card, &device.host);
    let wallet = host.wallet.as_ref().and_then(|key| host.curve.public_key(&key.private_key));
    host.curve.public_key(&host.card_key).as_ref() == Some(card.public_key())
        && match card.key_kind() {
            Some(KeyKind::None) => wallet.is_none(),
            _ => wallet.is_some_and(|key| key_uid(&key) == *card.key_uid()),
        }
}

/// What may be shown of a card: its UID, and whether it has PIN, PUK and pairing secret yet.
pub fn shown(card: &Card) -> String {
    let uid: String = card.uid().iter().map(|byte| format!("{byte:02X}")).collect();
    let state = if card.is_initialised() { "initialised" } else { "before INIT" };
    format!("{uid}, {state}")
}
