//! The card: its record, what can be read of it, and the operations on it.

use core::fmt;
use core::mem::{align_of, offset_of, size_of};

use crate::ffi;
use crate::lengths::*;
use crate::parts::{KeyKind, Path, Slot, Stage, TapRecord};
use crate::refusal::Refusal;
use crate::secrets::{wipe, wiped, Record};
use crate::supply::SupplyKind;

/// A card's whole state: the record of [`CARD_BYTES`] bytes that the library takes, byte for byte as `include/treadlewisp.h` has it.
///
/// Any bytes of that length can be a `Card`; one that is not sound is refused with [`Refusal::Unsound`]. Every card that an operation gives is sound.
/// PIN, PUK and keys are in it as they are. It is overwritten with zeros when it is dropped, and `Debug` shows none of them.
#[repr(C)]
pub struct Card {
    initialised: u8,
    uid: [u8; UID_BYTES],
    public_key: [u8; PUBLIC_KEY_BYTES],
    pin: [u8; PIN_BYTES],
    puk: [u8; PUK_BYTES],
    pin_tries: u8,
    puk_tries: u8,
    verified: u8,
    secret: [u8; KEY_BYTES],
    slots: [Slot; SLOTS],
    pending: u8,
    expected: [u8; KEY_BYTES],
    key_kind: u8,
    key_uid: [u8; KEY_BYTES],
    current: Path,
    pinless: Path,
    stage: u8,
    enc_key: [u8; KEY_BYTES],
    mac_key: [u8; KEY_BYTES],
    iv: [u8; IV_BYTES],
    tap: TapRecord,
}

/// Where a field lies in a card's bytes.
#[derive(Clone, Copy, PartialEq, Eq, Debug)]
#[non_exhaustive]
pub struct CardField {
    /// Its name in `include/treadlewisp.h`.
    pub name: &'static str,
    /// Its name in `docs/LAYOUT.md`, after that of its part.
    pub path: &'static str,
    /// Where it begins, in bytes from the card's start.
    pub offset: usize,
    /// How many bytes it has.
    pub bytes: usize,
}

/// One row of the table below.
macro_rules! field {
    ($name:ident, $path:literal, $bytes:expr) => {
        CardField {
            name: stringify!($name),
            path: $path,
            offset: offset_of!(Card, $name),
            bytes: $bytes,
        }
    };
}

impl Card {
    /// The fields of a card's bytes, in their order: each begins where the one before it ends.
    pub const FIELDS: &'static [CardField] = &[
        field!(initialised, "initialised", 1),
        field!(uid, "identity.uid", UID_BYTES),
        field!(public_key, "identity.public_key", PUBLIC_KEY_BYTES),
        field!(pin, "pins.pin", PIN_BYTES),
        field!(puk, "pins.puk", PUK_BYTES),
        field!(pin_tries, "pins.pin_tries", 1),
        field!(puk_tries, "pins.puk_tries", 1),
        field!(verified, "pins.verified", 1),
        field!(secret, "pairing.secret", KEY_BYTES),
        field!(slots, "pairing.slots", SLOTS * SLOT_BYTES),
        field!(pending, "pairing.pending", 1),
        field!(expected, "pairing.expected", KEY_BYTES),
        field!(key_kind, "keys.kind", 1),
        field!(key_uid, "keys.uid", KEY_BYTES),
        field!(current, "keys.current", PATH_BYTES),
        field!(pinless, "keys.pinless", PATH_BYTES),
        field!(stage, "channel.stage", 1),
        field!(enc_key, "channel.enc_key", KEY_BYTES),
        field!(mac_key, "channel.mac_key", KEY_BYTES),
        field!(iv, "channel.iv", IV_BYTES),
        field!(tap, "tap", TAP_BYTES),
    ];
}

// The layout of include/treadlewisp.h: no padding, no alignment, and each field after the one before it.
const _: () = assert!(size_of::<Card>() == CARD_BYTES && align_of::<Card>() == 1);
const _: () = assert!(size_of::<Slot>() == SLOT_BYTES && size_of::<Path>() == PATH_BYTES && size_of::<TapRecord>() == TAP_BYTES);
const _: () = {
    let mut end = 0;
    let mut k = 0;
    while k < Card::FIELDS.len() {
        assert!(Card::FIELDS[k].offset == end);
        end += Card::FIELDS[k].bytes;
        k += 1;
    }
    assert!(end == CARD_BYTES);
};

/// What every byte of a card is that has ended; no flag of a sound card is this.
const ENDED: u8 = 0xFF;

/// What ASK reports.
#[derive(Clone, Copy, PartialEq, Eq, Debug)]
#[non_exhaustive]
pub struct Asked {
    /// The supply that ANSWER will read for the command.
    pub kind: SupplyKind,
    /// How many bytes of the command's opened data were written from the buffer's start; 0 where ANSWER reads no supply.
    pub count: usize,
}

/// What ANSWER reports.
#[derive(Clone, Copy, PartialEq, Eq, Debug)]
#[non_exhaustive]
pub struct Answered {
    /// How many bytes of response data and status word were written from the buffer's start.
    pub count: usize,
    /// The fault offset, where LOAD of a plain or an extended key gives 6A80 because [`walk`](crate::walk) refuses its data: how many bytes of the
    /// opened data are before the tag of the faulty field, 0 to 222. None everywhere else: with success, for a LOAD whose fields are whole but are
    /// not those of a key, for a seed, and for every other command.
    pub fault_offset: Option<usize>,
}

/// The operations.
impl Card {
    /// FRESH: the card of a new device, before INIT.
    ///
    /// ```
    /// use treadlewisp::Card;
    /// let card = Card::fresh(&[0x11; 16], &[0x04; 65]);
    /// assert!(card.is_sound() && !card.is_initialised());
    /// ```
    #[must_use]
    pub fn fresh(uid: &[u8; UID_BYTES], public_key: &[u8; PUBLIC_KEY_BYTES]) -> Card {
        wiped(|| {
            let mut card = Card::zero();
            ffi::fresh(&mut card, uid, public_key);
            card
        })
    }

    /// Whether the card is sound.
    #[must_use]
    pub fn is_sound(&self) -> bool {
        wiped(|| ffi::sound(self))
    }

    /// RESET: power-up. Channel, verification and a pending pairing are gone, all else is kept.
    ///
    /// Resetting twice is resetting once: a second call gives what the first gave and changes no byte.
    ///
    /// # Errors
    ///
    /// [`Refusal::Unsound`]; the card is then as it was.
    pub fn reset(&mut self) -> Result<(), Refusal> {
        wiped(|| ffi::reset(self))
    }

    /// ASK: which supply [`answer`](Card::answer) will read for this command, with the command's opened data from the buffer's start. The
    /// host works out the supply from them. Bytes past the count are never touched.
    ///
    /// # Errors
    ///
    /// [`Refusal::Unsound`], or [`Refusal::Room`] where the buffer is under [`ASK_ROOM_BYTES`]; the buffer is then as it was.
    pub fn ask(&self, command: &[u8], buffer: &mut [u8]) -> Result<Asked, Refusal> {
        wiped(|| ffi::ask(self, command, buffer))
    }

    /// ANSWER: response data and status word from the buffer's start, and their count in bytes; the card becomes the next card. A sealed
    /// response is MAC, ciphertext and 9000; Lr, in its MAC, counts MAC and ciphertext, in bytes.
    ///
    /// Where LOAD's data are no sequence of fields, [`Answered`] also tells the place of the fault, for whoever mends them; the response
    /// is the same 6A80, and the terminal learns nothing of the place.
    ///
    /// The supply is read only where [`ask`](Card::ask) names a kind; else it may be empty. Bytes past the count are never touched.
    /// [`serve`](Card::serve) does ASK, ANSWER and WRITE in their order.
    ///
    /// # Errors
    ///
    /// [`Refusal::Unsound`], [`Refusal::Room`] where the buffer is under [`ANSWER_ROOM_BYTES`], or [`Refusal::BadSupply`]; card and buffer are
    /// then as they were.
    ///
    /// ```
    /// use treadlewisp::{Card, Refusal, StatusWord, ANSWER_ROOM_BYTES};
    /// let mut card = Card::fresh(&[0x11; 16], &[0x04; 65]);
    /// let mut buffer = [0xA5; ANSWER_ROOM_BYTES];
    /// let too_short = &mut buffer[1..];
    /// assert_eq!(card.answer(&[0x90, 0, 0, 0], &[], too_short), Err(Refusal::Room));
    /// let answered = card.answer(&[0x90, 0, 0, 0], &[], &mut buffer)?;
    /// assert_eq!(StatusWord::of(&buffer[..answered.count]), Some(StatusWord::UNKNOWN_CLASS));
    /// assert_eq!(answered.fault_offset, None);
    /// # Ok::<(), Refusal>(())
    /// ```
    pub fn answer(&mut self, command: &[u8], supply: &[u8], buffer: &mut [u8]) -> Result<Answered, Refusal> {
        wiped(|| ffi::answer(self, command, supply, buffer))
    }

    /// WRITE: the card's stored record from the buffer's start, and its length in bytes. It holds what [`reset`](Card::reset) keeps, and
    /// after INIT all [`SLOTS`] slots and the field of the tap record, also where that is empty. Bytes past the count are never touched.
    ///
    /// # Errors
    ///
    /// [`Refusal::Unsound`], or [`Refusal::Room`] where the buffer is under [`WRITE_ROOM_BYTES`]; the buffer is then as it was.
    pub fn write(&self, buffer: &mut [u8]) -> Result<usize, Refusal> {
        wiped(|| ffi::write(self, buffer))
    }

    /// READ: the card of a stored record, sound and reset. Older records are taken too. One with the [`SLOTS_BEFORE`] slots that versions up to
    /// 0.5.0 wrote is that of a card whose other slots are free; one without the field of the tap record, as versions up to 0.4.0 wrote it, is
    /// that of a card with none. [`write`](Card::write) then writes it with all slots and with the field.
    ///
    /// # Errors
    ///
    /// [`Refusal::NotRecord`]; there is then no card. (In C the record that is lent becomes FRESH of zeros.)
    ///
    /// ```
    /// use treadlewisp::{Card, Refusal};
    /// assert_eq!(Card::read(&[0x10, 0x00, 0x01, 0x00]), Err(Refusal::NotRecord));
    /// ```
    pub fn read(record: &[u8]) -> Result<Card, Refusal> {
        wiped(|| {
            let mut card = Card::zero();
            ffi::read(&mut card, record)?;
            Ok(card)
        })
    }
}

/// The record, as bytes.
impl Card {
    /// The card of these bytes, sound or not.
    ///
    /// ```
    /// use treadlewisp::{Card, Refusal, CARD_BYTES};
    /// let mut card = Card::from_bytes(&[0xFF; CARD_BYTES]);
    /// assert!(!card.is_sound());
    /// assert_eq!(card.reset(), Err(Refusal::Unsound));
    /// assert_eq!(card.to_bytes(), [0xFF; CARD_BYTES]);
    /// ```
    #[must_use]
    pub fn from_bytes(bytes: &[u8; CARD_BYTES]) -> Card {
        wiped(|| Card::of(bytes))
    }

    /// The card's bytes, PIN, PUK and keys among them. They are the caller's to [`wipe`](crate::wipe).
    #[must_use]
    pub fn to_bytes(&self) -> [u8; CARD_BYTES] {
        wiped(|| *self.bytes())
    }

    /// Ends the card: it is overwritten, and is not sound any more. (A card of zeros would be sound, as one before INIT.)
    pub(crate) fn end(&mut self) {
        wiped(|| {
            wipe(self.bytes_mut());
            self.bytes_mut().fill(ENDED);
        });
    }

    /// A record of zeros, for an operation to write over.
    fn zero() -> Card {
        Card::of(&[0; CARD_BYTES])
    }
}

/// What can be read of a card. A flag reads as set where its byte is 01.
impl Card {
    /// Whether INIT was done.
    #[must_use]
    pub fn is_initialised(&self) -> bool {
        self.initialised == 1
    }

    /// The card's UID.
    #[must_use]
    pub fn uid(&self) -> &[u8; UID_BYTES] {
        &self.uid
    }

    /// The card's public key.
    #[must_use]
    pub fn public_key(&self) -> &[u8; PUBLIC_KEY_BYTES] {
        &self.public_key
    }

    /// Tries left for the PIN, at most [`PIN_TRIES`].
    #[must_use]
    pub fn pin_tries(&self) -> u8 {
        self.pin_tries
    }

    /// Tries left for the PUK, at most [`PUK_TRIES`].
    #[must_use]
    pub fn puk_tries(&self) -> u8 {
        self.puk_tries
    }

    /// Whether the PIN is verified. A sound card has a verified PIN only in [`Stage::Mutual`]: verification ends with the channel.
    #[must_use]
    pub fn is_verified(&self) -> bool {
        self.verified == 1
    }

    /// The pairing secret. The card works out PAIR's cryptograms and pairing keys from it; no supply needs it.
    #[must_use]
    pub fn pairing_secret(&self) -> &[u8; KEY_BYTES] {
        &self.secret
    }

    /// The pairing slots, by their indexes: 0 to 7.
    #[must_use]
    pub fn slots(&self) -> &[Slot; SLOTS] {
        &self.slots
    }

    /// Whether a first step of PAIR waits for its final one.
    #[must_use]
    pub fn is_pairing_pending(&self) -> bool {
        self.pending == 1
    }

    /// The kind of the card's key; none where the byte is over 2, which no sound card has.
    #[must_use]
    pub fn key_kind(&self) -> Option<KeyKind> {
        KeyKind::from_number(self.key_kind)
    }

    /// The key's UID, which is SHA-256 of the public key in LOAD's supply; zero without a key.
    #[must_use]
    pub fn key_uid(&self) -> &[u8; KEY_BYTES] {
        &self.key_uid
    }

    /// The current path.
    #[must_use]
    pub fn current_path(&self) -> &Path {
        &self.current
    }

    /// The PIN-less path.
    #[must_use]
    pub fn pinless_path(&self) -> &Path {
        &self.pinless
    }

    /// The card's own tap record; empty where none was set.
    #[must_use]
    pub fn tap_record(&self) -> &TapRecord {
        &self.tap
    }

    /// The stage of the channel; none where the byte is over 2, which no sound card has.
    #[must_use]
    pub fn stage(&self) -> Option<Stage> {
        Stage::from_number(self.stage)
    }
}

/// No PIN, PUK, secret or key is shown.
impl fmt::Debug for Card {
    fn fmt(&self, f: &mut fmt::Formatter<'_>) -> fmt::Result {
        f.debug_struct("Card")
            .field("initialised", &self.is_initialised())
            .field("uid", &format_args!("{:02X?}", self.uid))
            .field("pin_tries", &self.pin_tries)
            .field("puk_tries", &self.puk_tries)
            .field("verified", &self.is_verified())
            .field("slots", &self.slots)
            .field("pairing_pending", &self.is_pairing_pending())
            .field("key_kind", &self.key_kind())
            .field("current_path", &self.current)
            .field("pinless_path", &self.pinless)
            .field("stage", &self.stage())
            .field("tap_record", &self.tap)
            .finish_non_exhaustive()
    }
}
