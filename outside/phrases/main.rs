//! The program phrases: a card with a channel and a terminal, over the proved library, for `mnemonic_check.py`. Each line of standard input is a
//! call, and each is answered with a line:
//!
//!     words ENTROPY     GENERATE MNEMONIC with this entropy as its supply, by SEAL, ASK, ANSWER and UNSEAL: the bytes of the word numbers
//!     entropy WORDS     ENTROPY of the bytes of word numbers: its refusal and the entropy
//!
//! Bytes are in hexadecimal, none are `-`. The same channel goes on from line to line. A line or an answer of another form ends the run with a
//! status that is not 0. Lengths are in bytes.

use outside::ffi::treadlewisp::{self, card_bytes, card_of, session_bytes, Asked};
use outside::model::card::{Card, Session, AUTHENTICATED, PIN_TRIES, YES};
use outside::model::commands::FOR_MNEMONIC;
use outside::model::engine::*;
use outside::model::phrase::ENTROPY_BYTES_PER_CHECKSUM_BIT;
use outside::model::status::{NOT_REFUSED, SUCCESS};
use outside::random::choice::array;
use outside::random::Random;
use std::io::{self, BufRead, BufWriter, Write};
use std::process;

const SEED: u64 = 0x7265_6164_6c65_7769;
const GENERATE_MNEMONIC: u8 = 0xd2;
/// What a buffer holds before a call.
const UNWRITTEN: u8 = 0xa5;

fn fail(what: &str, bytes: &[u8]) -> ! {
    println!("phrases: {what}: {}", hex(bytes));
    process::exit(1);
}

fn require(holds: bool, what: &str, bytes: &[u8]) {
    if !holds {
        fail(what, bytes);
    }
}

fn hex(bytes: &[u8]) -> String {
    match bytes {
        [] => "-".to_string(),
        _ => bytes.iter().map(|byte| format!("{byte:02x}")).collect(),
    }
}

fn bytes_of(text: &str) -> Option<Vec<u8>> {
    if text == "-" {
        return Some(Vec::new());
    }
    let pairs = text.as_bytes().chunks(2).map(|pair| std::str::from_utf8(pair).ok());
    pairs.map(|pair| u8::from_str_radix(pair?, 16).ok()).collect()
}

/// Both ends of a channel: the card's bytes and the terminal's session.
struct Channel {
    card: Vec<u8>,
    session: Vec<u8>,
}

impl Channel {
    /// A sound card in stage 2, without a verified PIN and without a key.
    fn new(random: &mut Random) -> Channel {
        let mut card = Card::fresh(array(random), array(random));
        (card.initialised, card.stage, card.pin_tries) = (YES, AUTHENTICATED, PIN_TRIES);
        (card.pin, card.puk) = (*b"123456", *b"123456789012");
        card.session = Session {
            enc_key: array(random),
            mac_key: array(random),
            iv: array(random),
        };
        let channel = Channel {
            card: card_bytes(&card),
            session: session_bytes(&card.session),
        };
        require(treadlewisp::sound(&channel.card) == YES, "the card is not sound", &channel.card);
        channel
    }

    /// The word numbers of this entropy, by the card. Nothing else of the card changes than the channel's IV, which is the terminal's too.
    fn words(&mut self, entropy: &[u8]) -> Vec<u8> {
        let p1 = entropy.len() / ENTROPY_BYTES_PER_CHECKSUM_BIT;
        let mut wanted = card_of(&self.card);
        let mut command = vec![UNWRITTEN; SEAL_ROOM_BYTES];
        let told = treadlewisp::seal(&mut self.session, &[0x80, GENERATE_MNEMONIC, p1 as u8, 0x00], &[], &mut command);
        require(told.refusal == NOT_REFUSED, "SEAL was refused", entropy);
        command.truncate(told.count);
        let asked = treadlewisp::ask(&self.card, &command, &mut [UNWRITTEN; ASK_ROOM_BYTES]);
        let entropy_alone = Asked {
            refusal: NOT_REFUSED,
            kind: FOR_MNEMONIC,
            count: 0,
        };
        require(asked == entropy_alone, &format!("ASK gave {asked:?}"), entropy);
        let mut response = vec![UNWRITTEN; ANSWER_ROOM_BYTES];
        let answered = treadlewisp::answer(&mut self.card, &command, entropy, &mut response);
        let is_right = (answered.refusal, answered.fault_offset) == (NOT_REFUSED, NO_FAULT);
        require(is_right, &format!("ANSWER gave {answered:?}"), entropy);
        let mut opened = vec![UNWRITTEN; UNSEAL_ROOM_BYTES];
        let told = treadlewisp::unseal(&mut self.session, &response[..answered.count], &mut opened);
        require(told.refusal == NOT_REFUSED, "UNSEAL refused the answer", entropy);
        let Some(words) = opened[..told.count].strip_suffix(&SUCCESS.to_be_bytes()) else {
            fail("the answer is another than 9000", &opened[..told.count]);
        };
        wanted.session.iv = card_of(&self.card).session.iv;
        let is_kept = self.card == card_bytes(&wanted) && self.session == session_bytes(&wanted.session);
        require(is_kept, "the card changed, or the two ends do not agree", entropy);
        words.to_vec()
    }
}

/// ENTROPY's refusal, and the entropy; bytes past it stay.
fn entropy(words: &[u8]) -> (u8, Vec<u8>) {
    let mut buffer = vec![UNWRITTEN; ENTROPY_ROOM_BYTES];
    let told = treadlewisp::entropy(words, &mut buffer);
    let is_count = told.count <= buffer.len() && (told.refusal == NOT_REFUSED || told.count == 0);
    require(is_count, &format!("ENTROPY gave {told:?}"), words);
    let after = buffer.split_off(told.count);
    let is_kept = after.iter().all(|&byte| byte == UNWRITTEN);
    require(is_kept, "ENTROPY wrote past the entropy", words);
    (told.refusal, buffer)
}

fn answer(channel: &mut Channel, line: &str) -> String {
    let call = line.split_once(' ').and_then(|(name, text)| Some((name, bytes_of(text)?)));
    match call {
        Some(("words", bytes)) => hex(&channel.words(&bytes)),
        Some(("entropy", bytes)) => {
            let (refusal, entropy) = entropy(&bytes);
            format!("{refusal} {}", hex(&entropy))
        }
        _ => fail("no such call", line.as_bytes()),
    }
}

fn main() -> io::Result<()> {
    let mut channel = Channel::new(&mut Random::new(SEED));
    let mut written = BufWriter::new(io::stdout().lock());
    for line in io::stdin().lock().lines() {
        let answer = answer(&mut channel, &line?);
        writeln!(written, "{answer}")?;
    }
    written.flush()
}
