//! The program player: scripts for the soft card (docs/SOFTCARD.md), played once more in plain Rust. It reads a script and writes, byte for
//! byte, what the soft card has to write for it, over the plain model of the rules (--model) or over the library (--library). Lengths, rooms
//! and counts are in bytes.

mod answers;
mod bytes;
mod call;
mod engine;
#[cfg(test)]
mod fault_tests;
mod fields;
mod lines;
#[cfg(test)]
mod phrase_tests;
mod play;
#[cfg(test)]
mod tests;

use engine::{Engine, Library, Model};
use play::{AsksForHelp, Player};
use std::io::{Read, Write};

const CANNOT: i32 = 2;

fn end(reason: &str) -> ! {
    eprintln!("player: {reason}");
    std::process::exit(CANNOT);
}

fn main() {
    let arguments: Vec<String> = std::env::args().skip(1).collect();
    let mut engine: Box<dyn Engine> = match arguments.iter().map(String::as_str).collect::<Vec<_>>()[..] {
        ["--model"] => Box::new(Model::new()),
        ["--library"] => Box::new(Library::new()),
        _ => end("say which engine plays the script on standard input: --model, or --library"),
    };
    let mut script = Vec::new();
    if let Err(error) = std::io::stdin().read_to_end(&mut script) {
        end(&format!("the script cannot be read: {error}"));
    }
    let mut player = Player::new(engine.as_mut());
    let played = player.play(&script);
    if let Err(error) = std::io::stdout().write_all(&player.written) {
        end(&format!("the answers cannot be written: {error}"));
    }
    if played == Err(AsksForHelp) {
        end("help is the soft card's own");
    }
}
