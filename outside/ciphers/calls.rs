//! Plays a script of CBC calls on the library aes_c and on the plain implementation, which have to do the same. A line is one call:
//!
//! - `key BYTES`: the key of the calls that follow;
//! - `encrypt IV DATA`, `decrypt IV DATA`: what the call left of DATA, or the number that it was refused with;
//! - `joined`: what the calls wrote since the last `joined`, one after the other.
//!
//! Bytes are hexadecimal digits, two a byte; `-` is no bytes. Each call is written again after `> `, comments (`#`) and blank lines as they are.
//! Lengths are in bytes.

use crate::{first_wrong, DONE, WRONG_DATA, WRONG_IV, WRONG_KEY};
use outside::ciphers::plain::{Aes, BLOCK_BYTES, KEY_BYTES};
use outside::ffi::aes_c;

/// The bytes that a word means.
pub fn bytes_of(word: &str) -> Option<Vec<u8>> {
    if word == "-" {
        return Some(Vec::new());
    }
    let digits: Option<Vec<u8>> = word.chars().map(|c| c.to_digit(16).map(|d| d as u8)).collect();
    let digits = digits.filter(|digits| !digits.is_empty() && digits.len() % 2 == 0)?;
    Some(digits.chunks(2).map(|pair| pair[0] << 4 | pair[1]).collect())
}

/// Ends the run.
fn fail(text: &str) -> ! {
    println!("{text}");
    std::process::exit(1);
}

/// A count and the bytes, in upper case.
fn shown(bytes: &[u8]) -> String {
    match bytes {
        [] => "0 bytes".to_string(),
        _ => {
            let digits: String = bytes.iter().map(|b| format!("{b:02X}")).collect();
            format!("{} bytes: {digits}", bytes.len())
        }
    }
}

#[derive(Default)]
struct Player {
    key: Vec<u8>,
    joined: Vec<u8>,
}

pub fn play(aes: &Aes, script: &str) {
    let Ok(text) = std::fs::read_to_string(script) else {
        fail(&format!("{script} cannot be read"))
    };
    let mut player = Player::default();
    for line in text.lines() {
        if line.is_empty() || line.starts_with('#') {
            println!("{line}");
            continue;
        }
        println!("> {line}");
        let Some(answer) = player.call(aes, line) else { fail("bad line") };
        println!("{answer}");
    }
}

impl Player {
    fn call(&mut self, aes: &Aes, line: &str) -> Option<String> {
        let words: Vec<&str> = line.split(' ').collect();
        match words[..] {
            ["key", key] => {
                self.key = bytes_of(key)?;
                Some(format!("key: {} bytes", self.key.len()))
            }
            ["joined"] => {
                let joined = std::mem::take(&mut self.joined);
                Some(format!("joined: {}", shown(&joined)))
            }
            [name @ ("encrypt" | "decrypt"), iv, data] => {
                let answer = self.cipher(aes, name == "encrypt", &bytes_of(iv)?, &bytes_of(data)?);
                Some(format!("{name}: {answer}"))
            }
            _ => None,
        }
    }

    /// One call on both sides.
    fn cipher(&mut self, aes: &Aes, encrypt: bool, iv: &[u8], data: &[u8]) -> String {
        let mut left = data.to_vec();
        let answer = match encrypt {
            true => aes_c::cbc_encrypt(&self.key, iv, &mut left),
            false => aes_c::cbc_decrypt(&self.key, iv, &mut left),
        };
        let wanted = first_wrong(&[
            (self.key.len() != KEY_BYTES, WRONG_KEY),
            (iv.len() != BLOCK_BYTES, WRONG_IV),
            (data.len() % BLOCK_BYTES != 0, WRONG_DATA),
        ]);
        let mut plain = data.to_vec();
        if wanted == DONE {
            let (key, iv) = (self.key[..].try_into().expect("32 bytes"), iv.try_into().expect("16 bytes"));
            match encrypt {
                true => aes.cbc_encrypt(key, iv, &mut plain),
                false => aes.cbc_decrypt(key, iv, &mut plain),
            }
        }
        if (answer, &left) != (wanted, &plain) {
            let side = |number, bytes| format!("refusal {number}, {}", shown(bytes));
            fail(&format!(
                "DIFFERENCE: the plain implementation has {}; the library {}",
                side(wanted, &plain),
                side(answer, &left)
            ));
        }
        match answer {
            DONE => {
                self.joined.extend(&left);
                shown(&left)
            }
            WRONG_KEY => "refused with 1, the length of the key".to_string(),
            WRONG_IV => "refused with 2, the length of the IV".to_string(),
            _ => "refused with 3, the length of the data".to_string(),
        }
    }
}
