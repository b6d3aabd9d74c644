//! The program hashes: holds the proved library sha_c to the plain implementation on pseudo-random messages, of every length up to ten blocks and
//! around the borders of longer ones, and every wrong room to its number. With the name of a folder it also writes a message of each length up to
//! four blocks there, and the library's digests as `sha256sum --check` reads them; with the name of a file besides, every message that it hashed and
//! the library's digest, for `hashlib_check.py`. The first difference is printed and ends the run with a status that is not 0. Lengths are in bytes.

use outside::ffi::sha_c;
use outside::hashes::plain::{self, BLOCK_BYTES, DIGEST_BYTES};
use outside::random::Random;
use std::io::{self, BufWriter, Write};
use std::path::Path;
use std::{env, fs, process};

const SEED: u64 = 0x7265_6164_6c65_7769;
/// Every length to this one, and as many messages of each.
const EVERY_LENGTH: usize = 10 * BLOCK_BYTES;
const TIMES: usize = 100;
/// All messages; those that are left have lengths around the borders of up to so many blocks.
const MESSAGES: usize = 100_000;
const MOST_BLOCKS: usize = 256;
/// Where the padding takes a block more, and where a block ends.
const BORDERS: [usize; 2] = [BLOCK_BYTES - 8, BLOCK_BYTES];
const AROUND: usize = 3;
/// Bytes on each side of a digest, which no call may change.
const GUARD_BYTES: usize = 64;
const GUARD: u8 = 0xa5;
const DONE: u8 = 0;
const WRONG_ROOM: u8 = 1;
/// What is written for sha256sum.
const WRITTEN_LENGTHS: usize = 4 * BLOCK_BYTES;

fn expect(holds: bool, bytes: usize, what: &str) {
    if !holds {
        println!("DIFFERENCE at a message of {bytes} bytes (seed {SEED:#x}): {what}");
        process::exit(1);
    }
}

/// The library's answer for a room of that length between guard bytes, and what it left there.
fn call(message: &[u8], room: usize) -> (u8, Vec<u8>) {
    let mut bytes = vec![GUARD; GUARD_BYTES + room + GUARD_BYTES];
    let answer = sha_c::sha256(message, &mut bytes[GUARD_BYTES..GUARD_BYTES + room]);
    let outside = bytes[..GUARD_BYTES].iter().chain(&bytes[GUARD_BYTES + room..]);
    expect(
        outside.copied().all(|b| b == GUARD),
        message.len(),
        "a byte outside the digest was changed",
    );
    (answer, bytes[GUARD_BYTES..GUARD_BYTES + room].to_vec())
}

fn digest(message: &[u8]) -> Vec<u8> {
    let (answer, digest) = call(message, DIGEST_BYTES);
    expect(answer == DONE, message.len(), "room for 32 bytes was refused");
    digest
}

/// A message of that length, somewhere in a buffer, so that its first byte lies at any alignment. Its length in 8 bytes, high byte first, the message
/// and the library's digest go to `written`.
fn compare(random: &mut Random, bytes: usize, written: &mut dyn Write) -> io::Result<()> {
    let start = random.below(16);
    let buffer = random.bytes(start + bytes);
    let message = &buffer[start..];
    let digest = digest(message);
    expect(
        digest == plain::sha256(message),
        bytes,
        "another digest than the plain implementation's",
    );
    written.write_all(&(bytes as u64).to_be_bytes())?;
    written.write_all(message)?;
    written.write_all(&digest)
}

fn border_length(random: &mut Random) -> usize {
    let border = random.below(MOST_BLOCKS) * BLOCK_BYTES + BORDERS[random.below(BORDERS.len())];
    border - AROUND + random.below(2 * AROUND + 1)
}

fn wrong_rooms(random: &mut Random) -> usize {
    let rooms = (0..=2 * DIGEST_BYTES).filter(|&room| room != DIGEST_BYTES);
    for room in rooms.clone() {
        let message = random.bytes(room);
        let (answer, left) = call(&message, room);
        let kept = left.iter().all(|&b| b == GUARD);
        expect(
            answer == WRONG_ROOM && kept,
            room,
            "a wrong room was not refused with 1, or was written to",
        );
    }
    rooms.count()
}

/// A message of each length, and the list of digests.
fn write_sums(random: &mut Random, folder: &Path) -> io::Result<()> {
    let mut sums = String::new();
    for bytes in 0..=WRITTEN_LENGTHS {
        let message = random.bytes(bytes);
        let name = format!("message_{bytes}");
        fs::write(folder.join(&name), &message)?;
        for byte in digest(&message) {
            sums.push_str(&format!("{byte:02x}"));
        }
        sums.push_str(&format!("  {name}\n"));
    }
    fs::write(folder.join("SHA256SUMS"), sums)
}

/// All messages; answers how many of them have lengths around block borders.
fn compare_all(random: &mut Random, written: &mut dyn Write) -> io::Result<usize> {
    for bytes in 0..=EVERY_LENGTH {
        for _ in 0..TIMES {
            compare(random, bytes, written)?;
        }
    }
    let left = MESSAGES - (EVERY_LENGTH + 1) * TIMES;
    for _ in 0..left {
        let bytes = border_length(random);
        compare(random, bytes, written)?;
    }
    written.flush()?;
    Ok(left)
}

fn run(folder: Option<&Path>, file: Option<&Path>) -> io::Result<()> {
    let mut random = Random::new(SEED);
    let left = match file {
        Some(file) => compare_all(&mut random, &mut BufWriter::new(fs::File::create(file)?))?,
        None => compare_all(&mut random, &mut io::sink())?,
    };
    let refused = wrong_rooms(&mut random);
    println!("hashes: {MESSAGES} messages, {TIMES} of each length to {EVERY_LENGTH} bytes and {left} around block borders to {MOST_BLOCKS} blocks; {refused} wrong rooms refused; no difference");
    match folder {
        Some(folder) => write_sums(&mut random, folder),
        None => Ok(()),
    }
}

fn main() {
    let names: Vec<_> = env::args_os().skip(1).collect();
    let mut paths = names.iter().map(Path::new);
    if let Err(error) = run(paths.next(), paths.next()) {
        println!("hashes: {error}");
        process::exit(1);
    }
}
