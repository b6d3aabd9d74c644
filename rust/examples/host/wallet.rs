//! The wallet's key, by BIP 32: the master key of a seed, and the keys of paths. Lengths are in bytes.

use treadlewisp::{Path, HARDENED, SEED_BYTES};

use crate::crypto::{hmac_sha512, Secret};
use crate::curve::Curve;

/// A private key; one with a chain code has children.
pub struct Key {
    pub private_key: Secret,
    pub chain_code: Option<Secret>,
}

impl Key {
    /// The master key of a seed; none where the seed gives no key.
    pub fn of_seed(curve: &Curve, seed: &[u8; SEED_BYTES]) -> Option<Key> {
        let (private_key, chain_code) = hmac_sha512(b"Bitcoin seed", &[seed]);
        Key::checked(curve, private_key, Some(chain_code))
    }

    /// The key of these parts; none where the private key is 0, or q or more.
    pub fn checked(curve: &Curve, private_key: Secret, chain_code: Option<Secret>) -> Option<Key> {
        curve.public_key(&private_key)?;
        Some(Key { private_key, chain_code })
    }

    /// The key of a path that begins at this one; none where a component gives no key.
    pub fn at(&self, curve: &Curve, path: &Path) -> Option<Key> {
        let here = Key {
            private_key: Secret(self.private_key.0),
            chain_code: self.chain_code.as_ref().map(|code| Secret(code.0)),
        };
        path.components().try_fold(here, |key, component| key.child(curve, component))
    }

    fn child(&self, curve: &Curve, component: u32) -> Option<Key> {
        let (chain_code, number) = (&self.chain_code.as_ref()?.0, component.to_be_bytes());
        let (left, right) = if component >= HARDENED {
            hmac_sha512(chain_code, &[&[0x00], &self.private_key.0, &number])
        } else {
            hmac_sha512(chain_code, &[&curve.compressed(&self.private_key)?, &number])
        };
        let private_key = curve.sum(&self.private_key, &left.0)?;
        Some(Key {
            private_key,
            chain_code: Some(right),
        })
    }
}
