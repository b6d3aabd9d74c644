//! A host for the tests. Lengths are in bytes.

#![allow(dead_code)]

use treadlewisp::*;

use crate::common::*;

/// A host that makes the supplies of the tests, notes what it is asked and when it stores, and fails where it is told to.
pub struct Desk {
    pub noted: Vec<String>,
    pub record: Vec<u8>,
    pub fails_to_supply: bool,
    pub fails_to_store: bool,
    /// The kind of supply that it makes, whichever is asked for.
    pub makes_only: Option<SupplyKind>,
    /// A right supply of a kind, for a command with this P1.
    pub supply: fn(SupplyKind, u8) -> Vec<u8>,
}

impl Desk {
    pub fn new() -> Desk {
        Desk {
            noted: Vec::new(),
            record: Vec::new(),
            fails_to_supply: false,
            fails_to_store: false,
            makes_only: None,
            supply: supply_for,
        }
    }

    /// The right supply of this kind, or that of the kind that is set.
    fn made(&mut self, kind: SupplyKind, note: String) -> Result<Supply, &'static str> {
        self.made_for(kind, command::P1_MNEMONIC_12_WORDS, note)
    }

    fn made_for(&mut self, kind: SupplyKind, p1: u8, note: String) -> Result<Supply, &'static str> {
        self.noted.push(note);
        let kind = self.makes_only.unwrap_or(kind);
        let made = Supply::from_bytes(kind, &(self.supply)(kind, p1)).expect("a right supply");
        (!self.fails_to_supply).then_some(made).ok_or("no random numbers")
    }

    pub fn take_notes(&mut self) -> Vec<String> {
        std::mem::take(&mut self.noted)
    }
}

impl Host for Desk {
    type Error = &'static str;

    fn init(&mut self, card: &Card, point: &[u8; PUBLIC_KEY_BYTES]) -> Result<Supply, Self::Error> {
        assert!(!card.is_initialised() && point == &POINT);
        self.made(SupplyKind::Init, "init".into())
    }
    fn open(&mut self, card: &Card, slot: u8, point: &[u8; PUBLIC_KEY_BYTES]) -> Result<Supply, Self::Error> {
        assert!(card.slots()[usize::from(slot)].is_filled() && point == &POINT);
        self.made(SupplyKind::Open, format!("open {slot}"))
    }
    fn mutual(&mut self, _: &Card, random: &[u8; KEY_BYTES]) -> Result<Supply, Self::Error> {
        self.made(SupplyKind::Mutual, format!("mutual {}", random[0]))
    }
    fn pair_first(&mut self, card: &Card, challenge: &[u8; KEY_BYTES]) -> Result<Supply, Self::Error> {
        assert!(!card.is_pairing_pending());
        self.made(SupplyKind::PairFirst, format!("pair first {}", challenge[0]))
    }
    fn pair_final(&mut self, card: &Card, cryptogram: &[u8; KEY_BYTES]) -> Result<Supply, Self::Error> {
        assert!(card.is_pairing_pending() && cryptogram == &client_cryptogram());
        self.made(SupplyKind::PairFinal, "pair final".into())
    }
    fn load(&mut self, _: &Card, key: LoadedKey) -> Result<Supply, Self::Error> {
        let note = match key {
            LoadedKey::Plain { private_key, public_key } => format!("plain {} {:?}", private_key[0], public_key.map(|key| key[64])),
            LoadedKey::Extended {
                private_key,
                chain_code,
                public_key,
            } => format!("extended {} {} {:?}", private_key[0], chain_code[31], public_key.map(|key| key[64])),
            LoadedKey::Seed(seed) => format!("seed {}", seed[63]),
        };
        self.made(SupplyKind::Load, note)
    }
    fn derive(&mut self, _: &Card, path: &Path) -> Result<Supply, Self::Error> {
        self.made(SupplyKind::Derive, format!("derive {path:?}"))
    }
    fn sign(&mut self, card: &Card, hash: &[u8; HASH_BYTES]) -> Result<Supply, Self::Error> {
        self.made(SupplyKind::Sign, format!("sign {} by {:?}", hash[0], card.current_path()))
    }
    fn export(&mut self, _: &Card, path: &Path, keys: ExportedKeys) -> Result<Supply, Self::Error> {
        self.made(SupplyKind::Export, format!("export {path:?} {keys:?}"))
    }
    fn mnemonic(&mut self, _: &Card, phrase: Phrase) -> Result<Supply, Self::Error> {
        self.made_for(SupplyKind::Mnemonic, phrase.checksum_bits(), format!("mnemonic {phrase:?}"))
    }
    /// A record that is stored is that of the card, and gives it back as after RESET.
    fn store(&mut self, card: &Card, record: &[u8]) -> Result<(), Self::Error> {
        let mut off = card.clone();
        off.reset().expect("RESET");
        assert_eq!(Card::read(record), Ok(off));
        self.noted.push("store".into());
        if self.fails_to_store {
            return Err("no room on the disk");
        }
        self.record = record.to_vec();
        Ok(())
    }
}
