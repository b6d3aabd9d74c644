//! A card's whole life, from FRESH to SIGN and over a power cut, with a real curve: a host to begin with.
//!
//!     cargo run --offline --locked --example host --features host_example
//!
//! It needs Debian's packages libsecp256k1-dev and libssl-dev. A folder for the card may be named; it must not be there yet, and stays.
//!
//! Both ends are in this program, and between them go bytes alone, by `Wire`:
//!
//! - the card's end is `Device`: the engine's `Card`, and its host `Keeper`, which does what the engine asks for (host/device.rs, host/keeper.rs);
//! - the other end is `Terminal`, the wallet program with its user (host/terminal.rs). It checks all that comes back.
//!
//! host/curve.rs and host/crypto.rs are thin modules over the two libraries. Lengths are in bytes.

#[path = "host/crypto.rs"]
mod crypto;
#[path = "host/curve.rs"]
mod curve;
#[path = "host/device.rs"]
mod device;
#[path = "host/disk.rs"]
mod disk;
#[path = "host/keeper.rs"]
mod keeper;
#[path = "host/keycard.rs"]
mod keycard;
#[path = "host/numbers.rs"]
mod numbers;
#[path = "host/terminal.rs"]
mod terminal;
#[path = "host/wallet.rs"]
mod wallet;

use std::path::{self, PathBuf};
use std::{env, fs, io, process};

use treadlewisp::*;

use crypto::sha256;
use curve::Curve;
use device::Device;
use keeper::stored_record;
use numbers::bytes;
use terminal::{Outcome, Terminal, Wire};

/// The card's end, as the terminal sees it: what carries a command to it.
struct CardEnd {
    device: Device,
    /// The fault offset that was shown for the last command.
    shown_fault: Option<usize>,
}

impl CardEnd {
    fn of(device: Device) -> CardEnd {
        CardEnd { device, shown_fault: None }
    }
}

/// A command comes, and its answer goes out once the record is stored: `serve` sees to that. Where a LOAD's data are at fault, the host shows the
/// place to whoever stands there. It shows the number alone: the byte there is a tag if all before it is right, and may be a byte of the
/// key if not.
impl Wire for CardEnd {
    fn carry(&mut self, command: &[u8]) -> io::Result<Answer> {
        let answer = self.device.serve(command)?;
        self.shown_fault = answer.fault_offset();
        if let Some(offset) = self.shown_fault {
            println!("  host: LOAD's data are at fault: field at byte {offset}");
        }
        Ok(answer)
    }
}

/// The seed of BIP 39's first test, `abandon abandon .. about` without a password, 64 bytes.
const SEED: &str = concat!(
    "5eb00bbddcf069084889a8ab9155568165f5c453ccb85e70811aaed6f6da5fc1",
    "9a5ac40b389cd370d086206dec8aa6c43daea6690f20ad3d8d48b2d2ce9e38e4",
);
/// x of the public key of m/44'/60'/0'/0/0 from this seed, 32 bytes; worked out by other programs.
const SEED_KEY_X: &str = "37b0bb7a8288d38ed49a524b5dc98cff3eb5ca824c9f9dc0dfdb3d9cd600f299";

fn main() -> Outcome<()> {
    let named = env::args_os().nth(1).map(PathBuf::from);
    let folder = named
        .clone()
        .unwrap_or_else(|| env::temp_dir().join(format!("treadlewisp-host-{}", process::id())));
    fs::create_dir(&folder)?;
    let lived = life(&folder);
    if named.is_none() {
        fs::remove_dir_all(&folder)?;
    }
    lived
}

/// The terminal meets a new card.
fn first_contact(card_end: &mut CardEnd, terminal: &mut Terminal) -> Outcome<()> {
    terminal.select(card_end)?;
    println!("SELECT  the card's public key, {PUBLIC_KEY_BYTES} bytes");
    terminal.init(card_end)?;
    println!("INIT    the card has PIN, PUK and pairing secret");
    let slot = terminal.pair(card_end)?;
    println!("PAIR    slot {slot}; the card's cryptogram is right");
    terminal.open_channel(card_end)?;
    println!("OPEN    and MUTUAL: both ends have the channel's keys");
    Ok(())
}

/// A key whose length has one too many: 6A80 for the terminal, and the place for the host.
fn load_at_fault(card_end: &mut CardEnd, terminal: &mut Terminal) -> Outcome<()> {
    let data = [&[0xA1, 34, 0x81, 33][..], &[0x11; KEY_BYTES]].concat();
    let command = ChannelCommand::new(&[command::CLASS_CARD, command::LOAD, command::P1_LOAD_PLAIN, 0x00], &data)?;
    let status = terminal.send(card_end, &command)?.status();
    println!("LOAD    a key's length is 33, and it has 32 bytes: {status}");
    check(
        status == StatusWord::WRONG_DATA && card_end.shown_fault == Some(2),
        "the fault has another place",
    )
}

/// A new recovery phrase, as a screen shows it to its owner, who copies it. A real terminal shows words: it has BIP 39's list, in which each
/// number is a word's place, from 0. It also wipes what it has shown; this phrase is of no wallet. It takes the channel, and no PIN.
fn recovery_phrase(card_end: &mut CardEnd, terminal: &mut Terminal) -> Outcome<()> {
    let words = terminal.phrase(card_end, Phrase::Words12)?;
    let numbers: Vec<String> = words.data().chunks(WORD_NUMBER_BYTES).map(shown).collect();
    println!("PHRASE  {} words: {}", numbers.len(), numbers.join(" "));

    // Back to the entropy. By BIP 39 the last 4 of the numbers' 132 bits are the first of its SHA-256, which the terminal makes itself.
    let found = entropy(words.data())?;
    let (last, checksum) = (words.data()[WORDS_MIN_BYTES - 1], sha256(&[found.bytes()])[0]);
    check(
        found.bytes().len() == ENTROPY_MIN_BYTES && last & 0x0F == checksum >> 4,
        "the words have another checksum",
    )?;
    println!("ENTROPY of these words: {ENTROPY_MIN_BYTES} bytes; the checksum is right");
    let mut copied = words.data().to_vec();
    copied[WORDS_MIN_BYTES - 1] ^= 0x01;
    let refused = entropy(&copied).err();
    wipe(&mut copied);
    check(refused == Some(Refusal::WrongChecksum), "a wrong word is taken")?;
    println!("ENTROPY where the last word was copied wrongly: {}", Refusal::WrongChecksum);
    let others = terminal.phrase(card_end, Phrase::Words24)?;
    check(others.data()[..WORDS_MIN_BYTES] != *words.data(), "the same words twice")
}

/// The number of a word, in decimal digits.
fn shown(number: &[u8]) -> String {
    u16::from_be_bytes([number[0], number[1]]).to_string()
}

fn life(folder: &path::Path) -> Outcome<()> {
    println!(
        "NUMBERS {} numbers of docs/INTEGRATION.md, as they should be",
        numbers::compare(&Curve::new()?)?
    );
    let mut card_end = CardEnd::of(Device::make(folder.to_path_buf())?);
    println!("FRESH   the record on the disk has {} bytes", stored_record(folder)?.len());
    let mut terminal = Terminal::new(b"024680", b"918273645546")?;
    first_contact(&mut card_end, &mut terminal)?;
    recovery_phrase(&mut card_end, &mut terminal)?;

    // A wrong PIN loses a try, on the disk too, before the terminal learns of it.
    let wrong = terminal.send(&mut card_end, &ChannelCommand::verify(b"024681"))?.status();
    let stored_tries = Card::read(&stored_record(folder)?)?.pin_tries();
    println!("VERIFY  a wrong PIN: {wrong}; on the disk: {stored_tries} tries");
    check(wrong == StatusWord::TRIES_LEFT_2 && stored_tries == 2, "the try was not lost")?;
    terminal.verify(&mut card_end)?;
    println!("VERIFY  the right PIN");

    load_at_fault(&mut card_end, &mut terminal)?;
    let key_uid = terminal.load(&mut card_end, &LoadedKey::Seed(&bytes(SEED)?))?;
    let master = terminal.export_public_at(&mut card_end, &Path::new(&[]).ok_or("no path")?)?;
    check(key_uid == keycard::key_uid(&master), "LOAD answers another key UID")?;
    println!("LOAD    the master key of a seed of {SEED_BYTES} bytes; its UID is right");
    let path = Path::new(&[44 + HARDENED, 60 + HARDENED, HARDENED, 0, 0]).ok_or("too many components")?;
    terminal.succeed(&mut card_end, &ChannelCommand::derive(&path))?;
    println!("DERIVE  m/44'/60'/0'/0/0");
    let payment = sha256(&[b"a payment"]);
    let signed = terminal.sign(&mut card_end, &payment)?;
    println!("SIGN    {} bytes of DER: right, with the lower s", signed.der.len());
    check(
        signed.public_key[1..=KEY_BYTES] == bytes::<KEY_BYTES>(SEED_KEY_X)?,
        "BIP 32 gives another key",
    )?;
    let exported = terminal.export_public(&mut card_end)?;
    check(exported == signed.public_key, "EXPORT gives another key than SIGN")?;
    println!("EXPORT  the public key of the signature");

    // The terminal goes: RESET, and the old channel is no more.
    card_end.device.card.reset()?;
    let lost = terminal.send(&mut card_end, &ChannelCommand::status_tries()).err();
    println!("RESET   {}", lost.ok_or("the channel has outlived RESET")?);

    // The power fails. The card comes back from the disk, with its key and its path.
    drop(card_end);
    let mut card_end = CardEnd::of(Device::start(folder.to_path_buf())?);
    println!("READ    the card from the disk");
    terminal.open_channel(&mut card_end)?;
    terminal.verify(&mut card_end)?;
    let again = terminal.sign(&mut card_end, &payment)?;
    check(again.public_key == signed.public_key, "another key after the power cut")?;
    println!("SIGN    by the same key, after OPEN, MUTUAL and VERIFY");
    Ok(())
}

fn check(holds: bool, otherwise: &'static str) -> Outcome<()> {
    if holds {
        Ok(())
    } else {
        Err(otherwise.into())
    }
}
