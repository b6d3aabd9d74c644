//! SHA-256 against the standard's examples, the published short messages, and the plain implementation of outside/ at each length around the
//! borders of blocks; and a terminal that pairs with it. Lengths are in bytes.

use std::fs;

use treadlewisp::{sha256, PlainCommand, StatusWord, DIGEST_BYTES, KEY_BYTES};

mod common;

#[path = "common/stack.rs"]
mod stack;

use common::plain_hash::{self as plain, BLOCK_BYTES};

/// A file of the repository.
fn text(path: &str) -> String {
    let file = format!("{}/../{path}", env!("CARGO_MANIFEST_DIR"));
    fs::read_to_string(&file).unwrap_or_else(|why| panic!("{file}: {why}"))
}

/// Bytes in hexadecimal.
fn hex(bytes: &[u8]) -> String {
    bytes.iter().map(|byte| format!("{byte:02x}")).collect()
}

fn bytes_of(hex: &str) -> Vec<u8> {
    let byte = |at: usize| u8::from_str_radix(&hex[at..at + 2], 16).expect(hex);
    (0..hex.len()).step_by(2).map(byte).collect()
}

/// The second has 56 bytes and is padded to two blocks.
#[test]
fn the_examples_of_the_standard() {
    let million = vec![b'a'; 1_000_000];
    let examples: [(&[u8], &str); 3] = [
        (b"abc", "ba7816bf8f01cfea414140de5dae2223b00361a396177a9cb410ff61f20015ad"),
        (
            b"abcdbcdecdefdefgefghfghighijhijkijkljklmklmnlmnomnopnopq",
            "248d6a61d20638b8e5c026930c3e6039a33ce45964ff2167f6ecedd419db06c1",
        ),
        (&million, "cdc76e5c9914fb9281a1c7e284d73e67f1809a48a497200e046d39ccc7112cd0"),
    ];
    for (message, digest) in examples {
        assert_eq!(hex(&sha256(message)), digest, "{} bytes", message.len());
    }
}

/// NIST's short messages, one of each length to a block. `Len` is in bits there; no bytes are written as one, 00.
#[test]
fn the_published_short_messages() {
    let text = text("crates/sha_vectors/data/SHA256ShortMsg.rsp");
    let values = |name: &str| -> Vec<&str> { text.lines().filter_map(|line| line.strip_prefix(name)).map(str::trim).collect() };
    let (bits, messages, digests) = (values("Len = "), values("Msg = "), values("MD = "));
    assert_eq!([bits.len(), messages.len(), digests.len()], [BLOCK_BYTES + 1; 3]);
    for (length, bits) in bits.iter().enumerate() {
        assert_eq!(bits.parse(), Ok(8 * length));
        let message = &bytes_of(messages[length])[..length];
        assert_eq!(hex(&sha256(message)), digests[length], "{length} bytes");
    }
}

/// Every length to four blocks and around the borders of longer messages, from eight places in memory.
#[test]
fn each_length_around_the_borders_of_blocks() {
    const PLACES: usize = 8;
    const MOST_BYTES: usize = 40 * BLOCK_BYTES;
    let borders = (5..40).flat_map(|blocks| [blocks * BLOCK_BYTES - 8, blocks * BLOCK_BYTES]);
    let lengths = (0..=4 * BLOCK_BYTES).chain(borders.flat_map(|border| border - 2..=border + 2));
    // no period of a power of two
    let memory: Vec<u8> = (0..MOST_BYTES + PLACES).map(|at| (at * at % 251) as u8).collect();
    for length in lengths {
        for place in 0..PLACES {
            let message = &memory[place..][..length];
            let digest: [u8; DIGEST_BYTES] = sha256(message);
            assert_eq!(hex(&digest), hex(&plain::sha256(message)), "{length} bytes from {place} on");
        }
    }
}

/// A terminal that pairs: the card's cryptogram is right, its own is taken, and both ends have the same pairing key.
#[test]
fn a_terminal_pairs_with_it() {
    let mut life = common::Life::initialised();
    let (secret, challenge) = (common::PAIRING_SECRET, common::CLIENT_CHALLENGE);
    let first = life.plain(PlainCommand::pair_first(&challenge).bytes());
    let (card_cryptogram, rest) = first.split_at(KEY_BYTES);
    assert_eq!(card_cryptogram, sha256(&[secret, challenge].concat()));
    let own = sha256(&[&secret, &rest[..KEY_BYTES]].concat());
    let last = life.plain(PlainCommand::pair_final(&own).bytes());
    assert_eq!(StatusWord::of(&last), Some(StatusWord::SUCCESS));
    let pairing_key = sha256(&[&secret, &last[1..=KEY_BYTES]].concat());
    assert_eq!(life.card.slots()[usize::from(last[0])].pairing_key(), &pairing_key);
}

#[test]
fn the_length_that_the_header_names() {
    let named = format!("#define TW_DIGEST_BYTES {DIGEST_BYTES}");
    assert!(text("include/sha_c.h").lines().any(|line| line == named), "{named}");
}

extern "C" {
    fn tw_sha256(message: *const u8, message_bytes: usize, digest: *mut u8, digest_bytes: usize) -> u8;
}

/// A call as C makes it leaves the end of a message on the stack; this crate's leaves nothing of it.
#[test]
fn a_call_leaves_nothing_of_a_message_on_the_stack() {
    let message: Vec<u8> = (0..100).map(|at: u8| at.wrapping_mul(57) ^ 0xA3).collect();
    let (mut bare, mut safe) = (vec![0; DIGEST_BYTES], vec![0; DIGEST_BYTES]);
    // SAFETY: message and digest are given with their lengths and are apart.
    let left = stack::on_stack(&mut || unsafe {
        tw_sha256(message.as_ptr(), message.len(), bare.as_mut_ptr(), bare.len());
    });
    assert!(left.pieces(&message) > 0, "the search finds nothing");
    assert!(left.used.len() < treadlewisp::STACK_WIPE_BYTES);
    let left = stack::on_stack(&mut || safe.copy_from_slice(&sha256(&message)));
    assert_eq!(left.pieces(&message), 0);
    assert_eq!((&bare, &safe[..]), (&safe, &plain::sha256(&message)[..]));
}
