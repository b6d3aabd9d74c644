//! The other end: a wallet program with its user. It sees nothing of the card but the bytes that come back. Lengths are in bytes.

use std::error::Error;
use std::io;

use treadlewisp::*;

use crate::crypto::{random, Secret};
use crate::curve::Curve;
use crate::keycard::{channel_keys, cryptogram, pairing_key};

pub type Outcome<T> = Result<T, Box<dyn Error>>;

/// What carries a command to the card, and its answer back: a reader, a radio, a socket.
pub trait Wire {
    fn carry(&mut self, command: &[u8]) -> io::Result<Answer>;
}

/// What the terminal knows, and keeps from one power-up to the next; but for the session.
pub struct Terminal {
    curve: Curve,
    pin: [u8; PIN_BYTES],
    puk: [u8; PUK_BYTES],
    pairing_secret: Secret,
    /// The card's public key, from SELECT.
    card_key: Option<[u8; PUBLIC_KEY_BYTES]>,
    /// The slot's index, and the key in it, from PAIR.
    pairing: Option<(u8, Secret)>,
    session: Option<Session>,
}

/// What SIGN answers.
pub struct Signed {
    pub public_key: [u8; PUBLIC_KEY_BYTES],
    /// The signature, in DER.
    pub der: Vec<u8>,
}

impl Terminal {
    /// A terminal that has paired with no card yet.
    pub fn new(pin: &[u8; PIN_BYTES], puk: &[u8; PUK_BYTES]) -> Outcome<Terminal> {
        Ok(Terminal {
            curve: Curve::new()?,
            pin: *pin,
            puk: *puk,
            pairing_secret: Secret(random()?),
            card_key: None,
            pairing: None,
            session: None,
        })
    }

    /// SELECT of a card before INIT: its public key, which the terminal keeps.
    pub fn select(&mut self, wire: &mut impl Wire) -> Outcome<()> {
        let answer = succeeded(wire.carry(PlainCommand::select().bytes())?)?;
        let key = field(answer.data(), 0x80).ok_or("SELECT: no public key")?;
        self.card_key = Some(key.content.try_into()?);
        Ok(())
    }

    /// INIT: PIN, PUK and pairing secret go to the card, enciphered with a key that only it can work out.
    pub fn init(&self, wire: &mut impl Wire) -> Outcome<()> {
        let (point, secret) = self.agreed()?;
        let command = PlainCommand::init(&InitParts {
            aes_key: &secret.0,
            point: &point,
            iv: &random()?,
            pin: &self.pin,
            puk: &self.puk,
            pairing_secret: &self.pairing_secret.0,
        });
        succeeded(wire.carry(command.bytes())?).map(drop)
    }

    /// PAIR: each end shows that it knows the pairing secret; the card gives a slot, and both keep a key for it.
    pub fn pair(&mut self, wire: &mut impl Wire) -> Outcome<u8> {
        let (secret, challenge) = (&self.pairing_secret.0, random()?);
        let first = succeeded(wire.carry(PlainCommand::pair_first(&challenge).bytes())?)?;
        let (card_cryptogram, card_challenge) = split::<KEY_BYTES, KEY_BYTES>(first.data())?;
        if card_cryptogram != cryptogram(secret, &challenge) {
            return Err("PAIR: this card does not know the pairing secret".into());
        }
        let own = cryptogram(secret, &card_challenge);
        let last = succeeded(wire.carry(PlainCommand::pair_final(&own).bytes())?)?;
        let ([slot], salt) = split::<1, KEY_BYTES>(last.data())?;
        self.pairing = Some((slot, pairing_key(secret, &salt)));
        Ok(slot)
    }

    /// OPEN and MUTUAL: new keys for the channel, and both ends show that they have them.
    pub fn open_channel(&mut self, wire: &mut impl Wire) -> Outcome<()> {
        let (slot, pairing_key) = self.pairing.as_ref().ok_or("not paired")?;
        let (point, secret) = self.agreed()?;
        let opened = succeeded(wire.carry(PlainCommand::open(*slot, &point).bytes())?)?;
        let (salt, iv) = split::<KEY_BYTES, IV_BYTES>(opened.data())?;
        let (enc_key, mac_key) = channel_keys(&secret, &pairing_key.0, &salt);
        self.session = Some(Session::new(&enc_key.0, &mac_key.0, &iv));
        self.succeed(wire, &ChannelCommand::mutual(&random()?)) // that the answer opens shows that the card has the keys
    }

    /// One command over the channel: the answer inside it, whatever its status word.
    pub fn send(&mut self, wire: &mut impl Wire, command: &ChannelCommand) -> Result<Answer, ExchangeError<io::Error>> {
        let session = self
            .session
            .as_mut()
            .ok_or(ExchangeError::NotCarried(io::Error::other("no channel")))?;
        session.exchange(command, |sealed| wire.carry(sealed))
    }

    /// One command over the channel that has to succeed, and answers no data that are needed.
    pub fn succeed(&mut self, wire: &mut impl Wire, command: &ChannelCommand) -> Outcome<()> {
        succeeded(self.send(wire, command)?).map(drop)
    }

    /// VERIFY: the PIN, which the user types.
    pub fn verify(&mut self, wire: &mut impl Wire) -> Outcome<()> {
        let command = ChannelCommand::verify(&self.pin);
        self.succeed(wire, &command)
    }

    /// GENERATE MNEMONIC: the numbers of the words of a new recovery phrase, 2 bytes each.
    pub fn phrase(&mut self, wire: &mut impl Wire, phrase: Phrase) -> Outcome<Answer> {
        let answer = succeeded(self.send(wire, &ChannelCommand::generate_mnemonic(phrase))?)?;
        match answer.data().len() == phrase.words_bytes() {
            true => Ok(answer),
            false => Err("GENERATE MNEMONIC: another number of words".into()),
        }
    }

    /// LOAD: the key's UID, as the card has worked it out.
    pub fn load(&mut self, wire: &mut impl Wire, key: &LoadedKey) -> Outcome<[u8; KEY_BYTES]> {
        let answer = succeeded(self.send(wire, &ChannelCommand::load(key))?)?;
        Ok(answer.data().try_into()?)
    }

    /// SIGN: the signature and its public key, once it is found right.
    pub fn sign(&mut self, wire: &mut impl Wire, hash: &[u8; HASH_BYTES]) -> Outcome<Signed> {
        let answer = succeeded(self.send(wire, &ChannelCommand::sign(hash))?)?;
        let template = field(answer.data(), 0xA0).ok_or("SIGN: no template")?.content;
        let key = field(template, 0x80).ok_or("SIGN: no public key")?;
        let signature = field(key.rest, 0x30).ok_or("SIGN: no signature")?;
        let signed = Signed {
            public_key: key.content.try_into()?,
            der: signature.whole.to_vec(),
        };
        match self.curve.verifies(&signed.public_key, hash, &signed.der) {
            true => Ok(signed),
            false => Err("SIGN: the signature is wrong, or has the higher s".into()),
        }
    }

    /// EXPORT: the public key of this path, and of the current path.
    pub fn export_public_at(&mut self, wire: &mut impl Wire, path: &Path) -> Outcome<[u8; PUBLIC_KEY_BYTES]> {
        self.exported(wire, &ChannelCommand::export(path, ExportedKeys::Public))
    }

    pub fn export_public(&mut self, wire: &mut impl Wire) -> Outcome<[u8; PUBLIC_KEY_BYTES]> {
        self.exported(wire, &ChannelCommand::export_current(ExportedKeys::Public))
    }

    fn exported(&mut self, wire: &mut impl Wire, command: &ChannelCommand) -> Outcome<[u8; PUBLIC_KEY_BYTES]> {
        let answer = succeeded(self.send(wire, command)?)?;
        let template = field(answer.data(), 0xA1).ok_or("EXPORT: no template")?.content;
        Ok(field(template, 0x80).ok_or("EXPORT: no public key")?.content.try_into()?)
    }

    /// A new key pair, for one command alone: its point, and the ECDH secret that the card will find with it.
    fn agreed(&self) -> Outcome<([u8; PUBLIC_KEY_BYTES], Secret)> {
        let (card_key, key) = (self.card_key.as_ref().ok_or("no card is selected")?, self.curve.new_key()?);
        let point = self.curve.public_key(&key).ok_or("no key")?;
        let secret = self.curve.ecdh(&key, card_key).ok_or("the card's public key is not on the curve")?;
        Ok((point, secret))
    }
}

/// The answer, if it is 9000.
fn succeeded(answer: Answer) -> Outcome<Answer> {
    match answer.status() {
        StatusWord::SUCCESS => Ok(answer),
        status => Err(format!("the card answered {status}").into()),
    }
}

/// Two parts of these lengths that are the whole.
fn split<const A: usize, const B: usize>(data: &[u8]) -> Outcome<([u8; A], [u8; B])> {
    let (a, b) = data.split_first_chunk().ok_or("the answer is too short")?;
    Ok((*a, b.try_into()?))
}

/// A field: its content, the whole of it, and what comes after it.
struct Field<'a> {
    content: &'a [u8],
    whole: &'a [u8],
    rest: &'a [u8],
}

/// The field that these bytes begin with, if it has this tag. Its length is one byte, or from 128 on 81 and one byte.
fn field(bytes: &[u8], tag: u8) -> Option<Field<'_>> {
    let (head_bytes, content_bytes) = match *bytes {
        [first, 0x81, length, ..] if first == tag => (3, usize::from(length)),
        [first, length @ 0..=0x7F, ..] if first == tag => (2, usize::from(length)),
        _ => return None,
    };
    let (whole, rest) = bytes.split_at_checked(head_bytes + content_bytes)?;
    let content = &whole[head_bytes..];
    Some(Field { content, whole, rest })
}
