//! The card's end: a card in memory, and its host. Lengths are in bytes.

use std::io;
use std::path::PathBuf;

use treadlewisp::*;

use crate::crypto::random;
use crate::curve::Curve;
use crate::keeper::Keeper;

/// A card in memory, and its host.
pub struct Device {
    pub card: Card,
    pub host: Keeper,
}

impl Device {
    /// FRESH: a new card. Its private key and its record are on the disk before the first command.
    pub fn make(folder: PathBuf) -> io::Result<Device> {
        let curve = Curve::new()?;
        let card_key = curve.new_key()?;
        let public_key = curve.public_key(&card_key).ok_or(io::Error::other("no key"))?;
        let mut host = Keeper::new(folder, curve, card_key);
        let card = Card::fresh(&random()?, &public_key);
        let mut record = [0; WRITE_ROOM_BYTES];
        let record_bytes = card.write(&mut record).map_err(io::Error::other)?;
        host.store(&card, &record[..record_bytes])?;
        Ok(Device { card, host })
    }

    /// READ: power-up, from what is on the disk.
    pub fn start(folder: PathBuf) -> io::Result<Device> {
        let (host, mut record) = Keeper::start(folder)?;
        let card = Card::read(&record);
        wipe(&mut record);
        let card = card.map_err(io::Error::other)?;
        Ok(Device { card, host })
    }

    /// A command comes, and its answer may go out: the record is stored. `Card::serve` sees to that order.
    pub fn serve(&mut self, command: &[u8]) -> io::Result<Answer> {
        self.card.serve(&mut self.host, command).map_err(io::Error::other)
    }
}
