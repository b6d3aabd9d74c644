//! The rows to settle (RULES 11.4), on the model and the library: one card from FRESH through INIT, PAIR, OPEN and MUTUAL to its status and
//! wrong PINs, as a well-behaved terminal does it, and the rows on padding, templates and signatures; beside them, exported keys (RULES
//! 6.19) and a published recovery phrase (RULES 6.22). Lengths are in bytes.

use crate::both::{hex, Both};
use outside::hashes::plain::sha256;
use outside::model::card::{Card, Session};
use outside::model::engine::{ANSWER_ROOM_BYTES, ENTROPY_ROOM_BYTES, SEAL_ROOM_BYTES, UNSEAL_ROOM_BYTES};
use outside::model::message::{encrypt, pad, unpad, HEADER_BYTES};
use outside::random::choice::array;
use outside::random::Random;

const VERIFY: u8 = 0x20;
const UNBLOCK: u8 = 0x22;
const STATUS: u8 = 0xf2;
const PIN: &[u8] = b"123456";
const WRONG_PIN: &[u8] = b"123457";
const PUK: &[u8] = b"123456789012";

/// A card and the terminal's session with it.
struct Script<'a> {
    both: &'a mut Both,
    card: Card,
    session: Session,
}

/// Ends the run where a row does not hold.
fn row(holds: bool, what: &str) {
    if !holds {
        println!("DIFFERENCE in the rows to settle: {what}");
        std::process::exit(1);
    }
}

impl Script<'_> {
    /// A plain command and its whole answer.
    fn plain(&mut self, command: &[u8], supply: &[u8]) -> Vec<u8> {
        let mut buffer = vec![0; ANSWER_ROOM_BYTES];
        let answered = self.both.answer(&mut self.card, command, supply, &mut buffer);
        buffer.truncate(answered.told.count);
        buffer
    }

    /// A sealed command and its opened answer.
    fn sealed(&mut self, header: [u8; HEADER_BYTES], data: &[u8], supply: &[u8]) -> Vec<u8> {
        let mut buffer = vec![0; SEAL_ROOM_BYTES];
        let told = self.both.seal(&mut self.session, header, data, &mut buffer);
        let response = self.plain(&buffer[..told.count], supply);
        let mut opened = vec![0; UNSEAL_ROOM_BYTES];
        let told = self.both.unseal(&mut self.session, &response, &mut opened);
        opened.truncate(told.count);
        opened
    }

    /// From FRESH to stage 2.
    fn begin(&mut self, random: &mut Random) {
        let (key, iv, secret): ([u8; 32], [u8; 16], [u8; 32]) = (array(random), array(random), array(random));
        let content = encrypt(&key, &iv, &pad(&[PIN, PUK, &secret].concat()));
        let point = [&[0x04], &random.bytes(64)[..]].concat();
        let init = [&[0x80, 0xfe, 0x00, 0x00, 146, 0x41], &point[..], &iv, &content].concat();
        let challenge: [u8; 32] = array(random);
        let cryptogram = sha256(&[secret, challenge].concat());
        let first = [&[0x80, 0x12, 0x00, 0x00, 32], &random.bytes(32)[..]].concat();
        let last = [&[0x80, 0x12, 0x01, 0x00, 32], &cryptogram[..]].concat();
        let open = [&[0x80, 0x10, 0x00, 0x00, 65], &point[..]].concat();
        let keys = random.bytes(112);
        self.succeeds(&init, &[&[1], &key[..]].concat(), 0);
        self.succeeds(&first, &challenge, 64);
        self.succeeds(&last, &random.bytes(32), 33);
        self.succeeds(&open, &[&[1], &keys[..]].concat(), 48);
        self.session = self.card.session;
        let opened = self.sealed([0x80, 0x11, 0x00, 0x00], &random.bytes(32), &random.bytes(32));
        row(opened.len() == 34 && opened.ends_with(&[0x90, 0x00]), "MUTUAL");
    }

    fn succeeds(&mut self, command: &[u8], supply: &[u8], data_bytes: usize) {
        let answer = self.plain(command, supply);
        let holds = answer.len() == data_bytes + 2 && answer.ends_with(&[0x90, 0x00]);
        row(holds, &format!("success of {}", hex(command)));
    }

    /// A sealed command with P1 00 whose opened answer is this, in hex.
    fn wants(&mut self, instruction: u8, data: &[u8], wanted: &str, what: &str) {
        let opened = self.sealed([0x80, instruction, 0x00, 0x00], data, &[]);
        row(hex(&opened) == wanted, what);
    }

    /// Wrong PINs down to none left, and the way back by the PUK.
    fn wrong_pins(&mut self) {
        self.wants(VERIFY, WRONG_PIN, "63c2", "first wrong PIN");
        self.wants(VERIFY, WRONG_PIN, "63c1", "second wrong PIN");
        self.wants(VERIFY, WRONG_PIN, "63c0", "third wrong PIN");
        self.wants(VERIFY, PIN, "63c0", "right PIN then");
        self.wants(UNBLOCK, &[PUK, PIN].concat(), "9000", "UNBLOCK");
    }

    /// A seed is loaded, and a signature with r = 128 and s = 1 is made.
    fn signature(&mut self, random: &mut Random) {
        let supply = [&[1], &random.bytes(65)[..]].concat();
        let opened = self.sealed([0x80, 0xd0, 0x03, 0x00], &random.bytes(64), &supply);
        row(opened[..] == [&sha256(&supply[1..])[..], &[0x90, 0x00]].concat(), "LOAD");
        let mut numbers = [0; 64];
        (numbers[31], numbers[63]) = (128, 1);
        let public_key = random.bytes(65);
        let opened = self.sealed([0x80, 0xc0, 0x00, 0x00], &random.bytes(32), &[&public_key, &numbers[..]].concat());
        let wanted = format!("a04c8041{}3007020200800201019000", hex(&public_key));
        row(hex(&opened) == wanted, "SIGN with r = 128 and s = 1");
    }

    /// The key at the node of the chat keys goes out with its private part, that of its parent with its public part alone.
    fn export(&mut self, random: &mut Random) {
        let node = [0x80, 0x00, 0x00, 0x2b, 0x80, 0x00, 0x00, 0x3c, 0x80, 0x00, 0x06, 0x2d];
        let (public_key, private_key) = (random.bytes(65), random.bytes(32));
        let supply = [&[1], &public_key[..], &private_key].concat();
        let opened = self.sealed([0x80, 0xc2, 0x02, 0x00], &node, &supply);
        let wanted = format!("a1658041{}8120{}9000", hex(&public_key), hex(&private_key));
        row(hex(&opened) == wanted, "EXPORT at the node");
        row(self.card.current_path.used() == node, "EXPORT with P1 02");
        let opened = self.sealed([0x80, 0xc2, 0x01, 0x00], &node[..8], &supply);
        row(hex(&opened) == "6985", "EXPORT of the private part above the node");
        let opened = self.sealed([0x80, 0xc2, 0x01, 0x01], &node[..8], &supply);
        let wanted = format!("a1438041{}9000", hex(&public_key));
        row(hex(&opened) == wanted, "EXPORT of the public part above the node");
    }

    /// BIP 39's first phrase, abandon eleven times and about: the numbers are 0 and 3.
    fn phrase(&mut self) {
        let entropy = [0x00; 16];
        let opened = self.sealed([0x80, 0xd2, 0x04, 0x00], &[], &entropy);
        row(
            hex(&opened) == format!("{}00039000", "0000".repeat(11)),
            "GENERATE MNEMONIC of zeros",
        );
        let mut buffer = vec![0xff; ENTROPY_ROOM_BYTES];
        let told = self.both.entropy(&opened[..24], &mut buffer);
        row((told.refusal, &buffer[..told.count]) == (0, &entropy), "ENTROPY of 0 and 3");
    }
}

/// Padding, on the model; WALK, on both.
fn rows_without_a_card(both: &mut Both) {
    row(hex(&pad(&[])) == "80000000000000000000000000000000", "pad of nothing");
    row(pad(&[0; 16]).len() == 32, "pad of 16 bytes");
    row(unpad(&[0; 16]).is_none(), "sixteen zeros");
    let told = both.walk(&[0xa1, 0x00]);
    row((told.refusal, told.count) == (0, 0), "WALK of A1 00");
    let walked = both.walk(&[0x80, 0x81, 0x05]);
    row((walked.refusal, walked.fault_offset) == (4, 0), "WALK of 80 81 05");
}

pub fn run(both: &mut Both, seed: u64) {
    both.walk = "the rows to settle".to_string();
    rows_without_a_card(both);
    let mut random = Random::new(seed);
    let random = &mut random;
    let card = both.fresh(array(random), array(random));
    let session = card.session;
    let mut script = Script { both, card, session };
    script.begin(random);
    script.wants(STATUS, &[], "a3090201030201050101009000", "status after INIT");
    script.wrong_pins();
    script.signature(random);
    script.export(random);
    script.phrase();
    row(script.both.reset(&mut script.card) == 0, "RESET");
    row(script.plain(&[0x80, STATUS, 0x00, 0x00], &[]) == [0x69, 0x85], "status in stage 0");
}
