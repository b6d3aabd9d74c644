//! The engine of a wallet card, for callers in Rust: safe functions over the library `treadlewisp`, which is written in Rattle and proved.
//!
//! A [`Card`] is a card's whole state. It takes a command and gives a response and the next state; a [`Session`] is the terminal's end of
//! the encrypted channel. The engine does no curve arithmetic and makes no random numbers: [`Card::ask`] says which results a command needs
//! (its *supply*, see [`SupplyKind`]), the host works them out, and [`Card::answer`] takes them. SHA-256 it does itself: PAIR's cryptograms and
//! pairing key, LOAD's key UID and the checksum of a recovery phrase are in no supply.
//!
//! | Operation | Here | What it does |
//! |---|---|---|
//! | FRESH | [`Card::fresh`] | the card of a new device |
//! | | [`Card::is_sound`] | whether a card's bytes are those of a sound one |
//! | RESET | [`Card::reset`] | power-up |
//! | ASK | [`Card::ask`] | which supply a command needs, and its opened data |
//! | ANSWER | [`Card::answer`] | the response, the next card, and where LOAD's data are at fault |
//! | SEAL | [`Session::seal`] | a sealed command |
//! | UNSEAL | [`Session::unseal`] | what a sealed response holds |
//! | WALK | [`walk`] | how many fields templates hold, or where the first fault is |
//! | ENTROPY | [`entropy`], [`entropy_into`] | from the numbers of a recovery phrase's words back to its entropy |
//! | WRITE | [`Card::write`] | the card's stored record |
//! | READ | [`Card::read`] | the card of a stored record |
//! | tap read | [`tap`] | what a phone is to read of a stored card: its own tap record, or the factory's |
//!
//! Above these there are names for what goes in and out, and the calls in their order:
//!
//! | What | Here |
//! |---|---|
//! | a supply, one constructor for each kind | [`Supply`] |
//! | a command as it is sent; SELECT, INIT, PAIR and OPEN by name | [`PlainCommand`] |
//! | a command over the channel, each by name | [`ChannelCommand`] |
//! | an answer: data and status word, and the fault offset | [`Answer`] |
//! | how many words a recovery phrase has | [`Phrase`] |
//! | what a host does: supplies, and storing the record | [`Host`] |
//! | the host's end: ASK, supply, ANSWER, store, and only then the answer | [`Card::serve`] |
//! | the terminal's end: SEAL, there and back, UNSEAL | [`Session::exchange`] |
//! | both ends in one program | [`exchange`] |
//!
//! Every length, room, count and offset is in bytes; [`walk`] alone counts fields, and a [`Phrase`] words and the bits of a checksum. Buffers are the caller's. An operation that cannot be done
//! gives a [`Refusal`], WALK with its place ([`WalkFault`]), and leaves card, session and buffer as they were. No operation panics or allocates,
//! and nothing is kept between calls.
//!
//! In C the caller has to ensure that pointers are valid, lengths right and arguments apart (`include/treadlewisp.h` says so at each
//! function). Here references and slices see to it: any call that compiles is allowed.
//!
//! # Example
//!
//! A new card: SELECT answers its public key, GET STATUS is not there before INIT, and the card is stored and taken back.
//!
//! ```
//! use treadlewisp::{command, Card, Refusal, StatusWord, ANSWER_ROOM_BYTES, RECORD_FRESH_BYTES, WRITE_ROOM_BYTES};
//!
//! let mut card = Card::fresh(&[0x11; 16], &[0x04; 65]);
//! let mut buffer = [0; ANSWER_ROOM_BYTES];
//!
//! let mut select = vec![command::CLASS_SELECT, command::SELECT, command::P1_SELECT, 0x00, 15];
//! select.extend_from_slice(command::APPLICATION_ID);
//! let count = card.answer(&select, &[], &mut buffer)?.count;
//! assert_eq!(count, 2 + 65 + 2); // tag and length, public key, status word
//! assert_eq!(buffer[..2], [0x80, 65]);
//! assert_eq!(StatusWord::of(&buffer[..count]), Some(StatusWord::SUCCESS));
//!
//! let get_status = [command::CLASS_CARD, command::GET_STATUS, 0x00, 0x00];
//! let count = card.answer(&get_status, &[], &mut buffer)?.count;
//! assert_eq!(buffer[..count], [0x6D, 0x00]);
//!
//! let mut record = [0; WRITE_ROOM_BYTES];
//! let count = card.write(&mut record)?;
//! assert_eq!(count, RECORD_FRESH_BYTES);
//! assert_eq!(Card::read(&record[..count])?, card);
//! # Ok::<(), Refusal>(())
//! ```
//!
//! # Secrets
//!
//! A [`Card`] holds PIN, PUK and keys, a [`Session`] keys, a [`Slot`] a key, an [`Entropy`] a wallet; a [`Supply`], a [`ChannelCommand`] and
//! an [`Answer`] may hold some.
//!
//! - When one is dropped, each byte of it is overwritten with zero.
//! - Each call wipes the stack that it used before it gives its result ([`wipe_stack`], [`STACK_WIPE_BYTES`] bytes), and so do `clone`,
//!   [`Card::from_bytes`], [`Card::to_bytes`] and their like. A thread needs that much stack.
//! - `==` looks at all bytes, wherever the first difference is. Nothing is claimed about the time that it or any call takes.
//! - `Debug` shows no PIN, PUK, secret or key.
//! - Commands, supplies and buffers that the caller makes as bytes are the caller's: [`wipe`] is for them. The data that [`Session::seal`] takes may be a PIN; the buffer of
//!   [`Card::ask`] has the key that LOAD brings, that of [`Session::unseal`] the key that EXPORT gives or the words of a recovery phrase, that of
//!   [`entropy_into`] the entropy, and that of [`Card::write`] the stored record.
//! - A move copies a value's bytes, and what it leaves at the old place is not wiped. `?` on [`Card::read`] and `Box::new(card)` are moves
//!   too. To leave no copy, keep the `Result` and borrow from it (`as_mut`), or make the card in a function of its own that gives it back in
//!   a `Box`, and call [`wipe_stack`] after that function.
//!
//! Registers are not cleared, nor what the system writes to disk. `SECURITY.md` of the repository has the whole of it.
//!
//! # Cutting and joining
//!
//! - [`Card::reset`] twice is [`Card::reset`] once.
//! - [`walk`] of parts that it accepts, joined, counts the sum of their fields. Long input may therefore be cut between two fields at the top.
//! - Data in AES-256 CBC may be cut after any multiple of 16 bytes and done part by part: together the parts give the bytes of the whole.
//!   The IV of a part is the last 16 bytes of ciphertext before it, or the first IV where no bytes are before it; when decrypting, the
//!   ciphertext as it was read. Padding is added once, to the whole. This crate has no function for CBC alone; the proved library `aes_c`
//!   has, for C and Rust (`crates/aes_c` of the repository, `outside/ffi/aes_c.rs` as an example).
//!
//! `docs/RULES.md`, sections 3.9, 9.7 and 7.6, has an example of each.
//!
//! # SHA-256
//!
//! The engine has SHA-256 (FIPS 180-4) inside, for PAIR, LOAD and recovery phrases; a host needs none for them. A terminal does: the client's cryptogram is
//! SHA-256 of pairing secret and card challenge, the pairing key that of pairing secret and salt. For it there is
//! `sha256(message: &[u8]) -> [u8; 32]`, proved too, in a library of its own, `sha_c`. The feature `sha256` has it; it is off by default, as a
//! host needs no second library. OPEN's keys are made with SHA-512, which is the host's and the terminal's own.
//!
//! # Building
//!
//! The library `libtreadlewisp.a` is linked from the repository's `target/staticlib`, where `tools/library` puts it, or from the folder
//! that the environment variable `TREADLEWISP_LIB_DIR` names (a relative one counts from this package). It is for x86-64 Linux; for AArch64
//! and 64-bit RISC-V Linux `tools/archive --target` puts it into a folder below, where the crate looks when it is built for them. With the
//! feature `sha256`, `libsha_c.a` is linked too, from the same folder; `tools/library` puts it there, and `tools/archive sha_c` makes it alone.
//!
//! The crate is `no_std` and depends on no other. `cargo package`, called in its folder, packs sources and example. The libraries are not in the
//! package: they are proved and made in the repository, and a program that uses the package names their folder in `TREADLEWISP_LIB_DIR`.
//! Package and library must be of the same version.
//!
//! `examples/host.rs` is a host and its terminal, with a real curve. It alone needs other libraries, Debian's packages libsecp256k1-dev and
//! libssl-dev, and is built with the feature `host_example`: `cargo run --example host --features host_example`.

#![no_std]
#![deny(unsafe_code, unsafe_op_in_unsafe_fn, missing_docs)]

mod buffer;
mod card;
mod channel_command;
pub mod command;
mod exchange;
#[allow(unsafe_code)]
mod ffi;
mod host;
mod lengths;
mod loaded;
mod parts;
mod phrase;
mod plain_command;
mod refusal;
mod reply;
#[allow(unsafe_code)]
mod secrets;
mod session;
#[cfg(feature = "sha256")]
mod sha256;
mod status;
mod supplies;
mod supply;
mod walk;

pub use card::{Answered, Asked, Card, CardField};
pub use channel_command::{ChannelCommand, ExportedKeys};
pub use exchange::{exchange, ExchangeError};
pub use host::{Host, ServeError};
pub use lengths::*;
pub use loaded::LoadedKey;
pub use parts::{KeyKind, Path, Slot, Stage, TapRecord};
pub use phrase::{entropy, entropy_into, Entropy, Phrase};
pub use plain_command::{InitParts, PlainCommand};
pub use refusal::Refusal;
pub use reply::Answer;
pub use secrets::{wipe, wipe_stack};
pub use session::Session;
#[cfg(feature = "sha256")]
pub use sha256::{sha256, DIGEST_BYTES};
pub use status::StatusWord;
pub use supplies::{ExportParts, OpenParts, SignParts, Supply};
pub use supply::SupplyKind;
pub use walk::{walk, WalkFault};

/// The tap read: which bytes a phone is to read when the card of this stored record is held to it. They are a part of what is lent, and
/// nothing is copied.
///
/// Where the record has the card's own tap record, which SET NDEF stored ([`command::SET_NDEF`]), the part is that, inside the record. Where
/// it has none, because it was never set, or the record has no field for it, or is one before INIT, the part is the whole factory record. That is not
/// looked at: it may be any bytes, or none.
///
/// # Errors
///
/// [`Refusal::NotRecord`] exactly where [`Card::read`] refuses the record.
///
/// ```
/// use treadlewisp::{tap, Card, Refusal, WRITE_ROOM_BYTES};
/// let mut buffer = [0; WRITE_ROOM_BYTES];
/// let count = Card::fresh(&[0x11; 16], &[0x04; 65]).write(&mut buffer)?;
/// let (record, factory) = (&buffer[..count], &[0x00, 0x03, 0xD0, 0x00, 0x00]);
/// assert_eq!(tap(record, factory)?, factory); // before INIT a card has none
/// assert_eq!(tap(&record[1..], factory), Err(Refusal::NotRecord));
/// # Ok::<(), Refusal>(())
/// ```
pub fn tap<'a>(record: &'a [u8], factory: &'a [u8]) -> Result<&'a [u8], Refusal> {
    secrets::wiped(|| ffi::tap(record, factory))
}
