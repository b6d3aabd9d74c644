//! SHA-256 of the library sha_c beside the plain implementation in Rust, on the same messages by turns, every digest compared. Lengths are in
//! bytes.

use crate::rounds::{median, on_moved_stack};
use outside::ffi::sha_c;
use outside::hashes::plain::{self, Digest, DIGEST_BYTES};
use outside::random::Random;
use std::hint::black_box;
use std::time::Instant;

const MESSAGE_BYTES: [usize; 6] = [0, 32, 64, 223, 1024, 1 << 16];
const ROUNDS: usize = 400;
/// About so many bytes are hashed in a round, padding among them.
const ROUND_BYTES: usize = 1 << 14;

fn library(message: &[u8]) -> Digest {
    let mut digest = [0; DIGEST_BYTES];
    assert_eq!(sha_c::sha256(message, &mut digest), 0);
    digest
}

/// Seconds, and the digests.
fn timed(round: usize, hash: fn(&[u8]) -> Digest, messages: &[Vec<u8>]) -> (f64, Vec<Digest>) {
    let mut digests = vec![[0; DIGEST_BYTES]; messages.len()];
    let seconds = on_moved_stack(round, &mut || {
        let start = Instant::now();
        for (digest, message) in digests.iter_mut().zip(messages) {
            *digest = hash(black_box(message));
        }
        start.elapsed().as_secs_f64()
    });
    (seconds, digests)
}

fn row(random: &mut Random, bytes: usize) -> f64 {
    let count = 1 + ROUND_BYTES / (bytes + 64);
    let (mut of_library, mut of_plain, mut ratios) = (f64::MAX, f64::MAX, Vec::new());
    for round in 0..ROUNDS {
        let messages: Vec<_> = (0..count).map(|_| random.bytes(bytes)).collect();
        let (first, second) = if round % 2 == 0 {
            let first = timed(round, library, &messages);
            (first, timed(round, plain::sha256, &messages))
        } else {
            let second = timed(round, plain::sha256, &messages);
            (timed(round, library, &messages), second)
        };
        if first.1 != second.1 {
            println!("DIFFERENCE at messages of {bytes} bytes");
            std::process::exit(1);
        }
        of_library = of_library.min(first.0);
        of_plain = of_plain.min(second.0);
        ratios.push(second.0 / first.0);
    }
    let ratio = median(ratios);
    let ns = |seconds: f64| seconds * 1e9 / count as f64;
    println!(
        "| {bytes} | {:.0} | {:.0} | {ratio:.2} ({:.2}) |",
        ns(of_library),
        ns(of_plain),
        of_plain / of_library
    );
    ratio
}

/// Prints the table.
pub fn table(random: &mut Random) {
    println!("\n| SHA-256 of a message of, bytes | library, ns | plain, ns | speed to plain |");
    println!("|---|---|---|---|");
    let least = MESSAGE_BYTES.map(|bytes| row(random, bytes)).into_iter().fold(f64::MAX, f64::min);
    println!("\nThe least ratio of hashing to the plain implementation: {least:.2}.");
}
