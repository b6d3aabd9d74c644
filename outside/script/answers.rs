//! The texts that a script's calls are answered with. Hexadecimal is in upper case; lengths are in bytes.

use super::call::length_text;
use super::fields::card_field;
use outside::model::card::SLOTS;
use outside::model::status::*;

/// What it is, its length, and the bytes where there are any.
pub fn bytes_text(what: &str, bytes: &[u8]) -> String {
    let length = length_text(bytes.len());
    if bytes.is_empty() {
        return format!("{what} {length}");
    }
    let digits: String = bytes.iter().map(|b| format!("{b:02X}")).collect();
    format!("{what} {length}: {digits}")
}

/// A refusal; the least room is that of the operation, if it takes a buffer.
pub fn refusal_text(refusal: u8, least_bytes: usize) -> String {
    let text = match refusal {
        UNSOUND => "the card is not sound".to_string(),
        SHORT_BUFFER => format!("the buffer has fewer than {least_bytes} bytes"),
        WRONG_SUPPLY => "the length of the supply or its flag byte is wrong".to_string(),
        MALFORMED => "malformed".to_string(),
        TOO_DEEP => "too deep".to_string(),
        LONG_DATA => "the data has more than 223 bytes".to_string(),
        NOT_GENUINE => "not genuine".to_string(),
        NOT_A_RECORD => "the bytes are no stored record".to_string(),
        WRONG_COUNT => "not 12, 15, 18, 21 or 24 numbers of 2 bytes".to_string(),
        NUMBER_TOO_LARGE => "a number is over 2047".to_string(),
        WRONG_CHECKSUM => "the checksum differs".to_string(),
        _ => panic!("no rule has the refusal {refusal}"),
    };
    format!("refusal {refusal}, {text}")
}

/// What a supply of this kind is made of.
pub fn supply_text(kind: u8) -> &'static str {
    match kind {
        0 => "no supply is read",
        1 => "INIT: 33 bytes: flag, AES key 32",
        2 => "OPEN: 113 bytes: flag, enc key 32, MAC key 32, salt 32, IV 16",
        3 => "MUTUAL: 32 bytes: random",
        4 => "PAIR first: 32 bytes: challenge 32",
        5 => "PAIR final: 32 bytes: salt 32",
        6 => "LOAD: 66 bytes: flag, public key 65",
        7 => "DERIVE: 1 byte: flag",
        8 => "SIGN: 129 bytes: public key 65, r 32, s 32",
        9 => "EXPORT: 98 bytes: flag, public key 65, private key 32",
        10 => "MNEMONIC: 4 times P1 bytes: entropy",
        _ => panic!("no rule has the kind {kind}"),
    }
}

/// The status word that these bytes end with, if they have two.
pub fn status_text(answer: &[u8]) -> Option<String> {
    let &[high, low] = answer.last_chunk()?;
    let word = u16::from_be_bytes([high, low]);
    let text = match word {
        SUCCESS => "success",
        WRONG_ENTRY => "no tries left",
        0x63c1 => "1 try left",
        0x63c2 => "2 tries left",
        0x63c3 => "3 tries left",
        0x63c4 => "4 tries left",
        0x63c5 => "5 tries left",
        WRONG_LENGTH => "wrong length",
        SECURITY_NOT_SATISFIED => "security condition not met",
        DATA_INVALID => "key not usable",
        CONDITIONS_NOT_SATISFIED => "conditions not met",
        WRONG_DATA => "wrong data",
        NOT_FOUND => "not found",
        NO_SPACE => "no free slot",
        WRONG_P1_P2 => "wrong P1 or P2",
        UNKNOWN_INSTRUCTION => "unknown instruction",
        UNKNOWN_CLASS => "unknown class",
        _ => "not known",
    };
    Some(format!("  status word {word:04X}, {text}"))
}

/// The card in one line.
pub fn card_text(card: &[u8]) -> String {
    let byte = |name: &str| card[card_field(name.as_bytes()).expect("a field of the card").1.start];
    let slots: Vec<String> = (0..SLOTS).map(|index| byte(&format!("slot{index}.filled")).to_string()).collect();
    format!(
        "  card: initialised {}, stage {}, verified {}, PIN tries {}, PUK tries {}, slots {}, pending {}, key kind {}, \
         current path {}, PIN-less path {}, tap record {}",
        byte("initialised"),
        byte("stage"),
        byte("verified"),
        byte("pin_tries"),
        byte("puk_tries"),
        slots.join(" "),
        byte("pending"),
        byte("key_kind"),
        length_text(byte("current.len").into()),
        length_text(byte("pinless.len").into()),
        length_text(byte("tap.len").into()),
    )
}

/// Where the faulty field begins, and its tag where the bytes are at hand.
pub fn fault_text(offset: usize, bytes: Option<&[u8]>) -> String {
    match bytes {
        Some(bytes) => format!("  field at byte {offset}: {:02X}", bytes[offset]),
        None => format!("  field at byte {offset}"),
    }
}

/// Word numbers, of 2 bytes each, in decimal.
pub fn words_text(words: &[u8]) -> String {
    let numbers = words
        .chunks_exact(2)
        .map(|number| u16::from_be_bytes([number[0], number[1]]).to_string());
    let numbers: Vec<String> = numbers.collect();
    format!("  {} words: {}", numbers.len(), numbers.join(" "))
}

pub fn count_text(fields: usize) -> String {
    match fields {
        1 => "1 field".to_string(),
        _ => format!("{fields} fields"),
    }
}
