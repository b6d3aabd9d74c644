//! The card's host: it makes the supplies that the engine asks for, and keeps keys and record. It hashes nothing for PAIR and LOAD: the card
//! does. Lengths are in bytes.

use std::io;
use std::path::PathBuf;

use treadlewisp::*;

use crate::crypto::{random, Secret};
use crate::curve::Curve;
use crate::disk;
use crate::keycard::channel_keys;
use crate::wallet::Key;

/// The card's host: its keys, and the folder where they and the record are kept.
pub struct Keeper {
    pub folder: PathBuf,
    pub curve: Curve,
    /// The private key of the card's public key.
    pub card_key: Secret,
    /// The wallet's key, if the card has one.
    pub wallet: Option<Key>,
    /// The key that LOAD has brought, until its record is stored.
    loaded: Option<Key>,
}

/// The stored file: the card's private key, the wallet's private key and chain code, which are zeros where there is none, and the record. One
/// file, so that a record and its key are stored together, or neither is.
pub const CARD_FILE: &str = "card";

/// The three keys of the stored file, and its record.
fn stored(folder: &std::path::Path) -> io::Result<([Secret; 3], Vec<u8>)> {
    let mut bytes = disk::read(folder, CARD_FILE)?;
    let parts = bytes.split_at_checked(3 * KEY_BYTES);
    let (keys, record) = parts.ok_or(io::Error::other("the stored file is too short"))?;
    let key = |number: usize| Secret(std::array::from_fn(|at| keys[number * KEY_BYTES + at]));
    let stored = ([key(0), key(1), key(2)], record.to_vec());
    wipe(&mut bytes);
    Ok(stored)
}

/// The record of the stored file.
pub fn stored_record(folder: &std::path::Path) -> io::Result<Vec<u8>> {
    stored(folder).map(|(_, record)| record)
}

impl Keeper {
    /// The host of a new card.
    pub fn new(folder: PathBuf, curve: Curve, card_key: Secret) -> Keeper {
        Keeper {
            folder,
            curve,
            card_key,
            wallet: None,
            loaded: None,
        }
    }

    /// The host of a stored card, and its record. A plain key has a chain code of zeros then, which nothing uses.
    pub fn start(folder: PathBuf) -> io::Result<(Keeper, Vec<u8>)> {
        let ([card_key, private_key, chain_code], record) = stored(&folder)?;
        let mut keeper = Keeper::new(folder, Curve::new()?, card_key);
        keeper.wallet = Key::checked(&keeper.curve, private_key, Some(chain_code));
        Ok((keeper, record))
    }

    /// The key that signs and exports for this path; none where the path leads to none.
    fn key_at(&self, path: &Path) -> io::Result<Option<Key>> {
        let key = self.wallet.as_ref().ok_or(io::Error::other("the wallet's key is lost"))?;
        Ok(key.at(&self.curve, path))
    }
}

/// What the engine asks its host for. Each supply is made in one place.
impl Host for Keeper {
    type Error = io::Error;

    fn init(&mut self, _: &Card, point: &[u8; PUBLIC_KEY_BYTES]) -> io::Result<Supply> {
        let secret = self.curve.ecdh(&self.card_key, point);
        Ok(secret.map_or(Supply::no_init(), |secret| Supply::init(&secret.0)))
    }

    fn open(&mut self, card: &Card, slot: u8, point: &[u8; PUBLIC_KEY_BYTES]) -> io::Result<Supply> {
        let Some(secret) = self.curve.ecdh(&self.card_key, point) else {
            return Ok(Supply::no_open());
        };
        let (salt, iv) = (random()?, random()?);
        let (enc_key, mac_key) = channel_keys(&secret, card.slots()[usize::from(slot)].pairing_key(), &salt);
        Ok(Supply::open(&OpenParts {
            enc_key: &enc_key.0,
            mac_key: &mac_key.0,
            salt: &salt,
            iv: &iv,
        }))
    }

    fn mutual(&mut self, _: &Card, _terminal_random: &[u8; KEY_BYTES]) -> io::Result<Supply> {
        Ok(Supply::mutual(&random()?))
    }

    fn pair_first(&mut self, _: &Card, _client_challenge: &[u8; KEY_BYTES]) -> io::Result<Supply> {
        Ok(Supply::pair_first(&random()?))
    }

    fn pair_final(&mut self, _: &Card, _client_cryptogram: &[u8; KEY_BYTES]) -> io::Result<Supply> {
        Ok(Supply::pair_final(&random()?))
    }

    /// The new key waits in memory beside the old one, until it is stored together with the record that names it.
    fn load(&mut self, _: &Card, key: LoadedKey) -> io::Result<Supply> {
        let (key, sent) = match key {
            LoadedKey::Seed(seed) => (Key::of_seed(&self.curve, seed), None),
            LoadedKey::Plain { private_key, public_key } => (Key::checked(&self.curve, Secret(*private_key), None), public_key),
            LoadedKey::Extended {
                private_key,
                chain_code,
                public_key,
            } => (
                Key::checked(&self.curve, Secret(*private_key), Some(Secret(*chain_code))),
                public_key,
            ),
        };
        let Some((key, public_key)) = key.and_then(|key| self.curve.public_key(&key.private_key).map(|public| (key, public))) else {
            return Ok(Supply::no_load());
        };
        if sent.is_some_and(|sent| *sent != public_key) {
            return Ok(Supply::no_load());
        }
        self.loaded = Some(key);
        Ok(Supply::load(&public_key))
    }

    fn derive(&mut self, _: &Card, path: &Path) -> io::Result<Supply> {
        let key = self.key_at(path)?;
        Ok(key.map_or(Supply::no_derive(), |_| Supply::derive()))
    }

    fn sign(&mut self, card: &Card, hash: &[u8; HASH_BYTES]) -> io::Result<Supply> {
        let key = self.key_at(card.current_path())?.map(|key| key.private_key);
        let parts = key.and_then(|key| Some((self.curve.public_key(&key)?, self.curve.sign(&key, hash)?)));
        let (public_key, (r, s)) = parts.ok_or(io::Error::other("no signature"))?;
        Ok(Supply::sign(&SignParts {
            public_key: &public_key,
            r: &r,
            s: &s,
        }))
    }

    fn export(&mut self, _: &Card, path: &Path, keys: ExportedKeys) -> io::Result<Supply> {
        let key = self.key_at(path)?.map(|key| key.private_key);
        let both = key.and_then(|key| Some((self.curve.public_key(&key)?, key)));
        Ok(both.map_or(Supply::no_export(), |(public_key, key)| {
            Supply::export(&ExportParts {
                public_key: &public_key,
                private_key: (keys == ExportedKeys::PrivateAndPublic).then_some(&key.0),
            })
        }))
    }

    /// As many random bytes as the phrase takes. The host keeps none of them: they are wiped here, and in the supply once it is read.
    fn mnemonic(&mut self, _: &Card, phrase: Phrase) -> io::Result<Supply> {
        let entropy = Secret(random()?);
        Supply::mnemonic(&entropy.0[..phrase.entropy_bytes()]).map_err(io::Error::other)
    }

    /// LOAD has brought another key, or REMOVE has removed it: the file has the record and its key, or is as it was.
    fn store(&mut self, card: &Card, record: &[u8]) -> io::Result<()> {
        if let Some(key) = self.loaded.take() {
            self.wallet = Some(key); // where `load` gave a public key, LOAD has answered 9000
        }
        if card.key_kind() == Some(KeyKind::None) {
            self.wallet = None;
        }
        let zeros = [0; KEY_BYTES];
        let private_key = self.wallet.as_ref().map_or(&zeros, |key| &key.private_key.0);
        let chain_code = self
            .wallet
            .as_ref()
            .and_then(|key| key.chain_code.as_ref())
            .map_or(&zeros, |code| &code.0);
        let mut bytes = [&self.card_key.0[..], private_key, chain_code, record].concat();
        let written = disk::write(&self.folder, CARD_FILE, &bytes);
        wipe(&mut bytes);
        written
    }
}
