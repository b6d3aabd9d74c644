//! A card in a virtual PC/SC reader: stock tools talk to the engine as to a card. `tools/reader` starts it, docs/READER.md is its page.
//!
//! pcscd loads the driver vpcd, which listens on a port of this machine; this program connects to it and is the card (vpcd.rs). The card is the
//! proved engine. Its host is the sample host of `rust/examples/host`: the curve by libsecp256k1, hashes and random numbers by libcrypto. The
//! card is kept in a folder, which one process has at a time (folder.rs, disk.rs). Lengths are in bytes.

mod atr;
mod disk;
mod folder;
mod slot;
mod tag;
mod vpcd;

// The sample host, as it is. Its example has a terminal too, which uses what is not used here.
#[allow(dead_code)]
#[path = "../../rust/examples/host/crypto.rs"]
mod crypto;
#[allow(dead_code)]
#[path = "../../rust/examples/host/curve.rs"]
mod curve;
#[path = "../../rust/examples/host/device.rs"]
mod device;
#[allow(dead_code)]
#[path = "../../rust/examples/host/keeper.rs"]
mod keeper;
#[allow(dead_code)]
#[path = "../../rust/examples/host/keycard.rs"]
mod keycard;
#[path = "../../rust/examples/host/wallet.rs"]
mod wallet;

use std::env;
use std::error::Error;
use std::ffi::OsString;
use std::io::{self, Write};
use std::path::PathBuf;
use std::process::ExitCode;

use folder::Folder;
use slot::Slot;

type Outcome<T> = Result<T, Box<dyn Error>>;

const USAGE: &str = "usage: reader [--port PORT] FOLDER";
/// The port on which vpcd listens for its first slot, in Debian's package.
const VPCD_PORT: u16 = 0x8C7B;

/// What the command line asks for.
struct Asked {
    port: u16,
    folder: PathBuf,
}

fn main() -> ExitCode {
    let Some(asked) = asked(env::args_os().skip(1)) else {
        eprintln!("{USAGE}");
        return ExitCode::from(2);
    };
    match run(asked) {
        Ok(()) => ExitCode::SUCCESS,
        Err(why) => {
            eprintln!("reader: {why}");
            ExitCode::from(1)
        }
    }
}

fn asked(mut words: impl Iterator<Item = OsString>) -> Option<Asked> {
    let (mut port, mut folder) = (VPCD_PORT, None);
    while let Some(word) = words.next() {
        if word == "--port" {
            port = words.next()?.to_str()?.parse().ok().filter(|port| *port > 0)?;
        } else if folder.is_none() && !word.is_empty() && !word.to_string_lossy().starts_with('-') {
            folder = Some(PathBuf::from(word));
        } else {
            return None;
        }
    }
    folder.map(|folder| Asked { port, folder })
}

/// Until it is ended from outside, or the card cannot go on.
fn run(asked: Asked) -> Outcome<()> {
    let folder = Folder::take(asked.folder)?;
    let device = folder.card()?;
    say(&format!("card {}", folder::shown(&device.card)));
    Slot::new(asked.port, device).serve()
}

/// A line for whoever stands there, at once. Where nobody can read it, the card goes on.
fn say(line: &str) {
    let mut out = io::stdout().lock();
    let _ = writeln!(out, "reader: {line}").and_then(|()| out.flush());
}
