//! The sealed message (RULES 7.5 and 8): padding, the MAC, and sealing and opening at either end. The field is the MAC of 16 bytes and the
//! ciphertext after it; lengths are in bytes.

use super::card::Session;
use super::cipher::{Aes, Block, Key, BLOCK_BYTES};
use std::sync::LazyLock;

pub const HEADER_BYTES: usize = 4;
pub const MAX_DATA_BYTES: usize = 223;
pub const MIN_FIELD_BYTES: usize = 32;
pub const MAX_FIELD_BYTES: usize = 240;

static AES: LazyLock<Aes> = LazyLock::new(Aes::new);

/// 80, then 00 up to a multiple of 16 bytes.
pub fn pad(data: &[u8]) -> Vec<u8> {
    let mut padded = data.to_vec();
    padded.push(0x80);
    while padded.len() % BLOCK_BYTES != 0 {
        padded.push(0);
    }
    padded
}

/// The data that padding makes this text of, if there are any.
pub fn unpad(text: &[u8]) -> Option<Vec<u8>> {
    let at = text.iter().rposition(|&b| b == 0x80)?;
    let data = &text[..at];
    (pad(data) == text).then(|| data.to_vec())
}

pub fn encrypt(key: &Key, iv: &Block, text: &[u8]) -> Vec<u8> {
    let mut buffer = text.to_vec();
    AES.cbc_encrypt(key, iv, &mut buffer);
    buffer
}

pub fn decrypt(key: &Key, iv: &Block, ciphertext: &[u8]) -> Vec<u8> {
    let mut buffer = ciphertext.to_vec();
    AES.cbc_decrypt(key, iv, &mut buffer);
    buffer
}

/// The MAC over one head block and the ciphertext.
pub fn mac(key: &Key, head: &Block, ciphertext: &[u8]) -> Block {
    AES.cbc_mac(key, &[head, ciphertext].concat())
}

/// Head for a command: CLA INS P1 P2 Lc and 11 zeros; Lc counts MAC and ciphertext.
pub fn command_head(header: [u8; HEADER_BYTES], field_bytes: usize) -> Block {
    let mut head = [0; BLOCK_BYTES];
    head[..HEADER_BYTES].copy_from_slice(&header);
    head[HEADER_BYTES] = field_bytes as u8;
    head
}

/// Head for a response: Lr and 15 zeros; Lr counts MAC and ciphertext, as Lc does: the ciphertext's bytes and 16 more.
pub fn response_head(field_bytes: usize) -> Block {
    let mut head = [0; BLOCK_BYTES];
    head[0] = field_bytes as u8;
    head
}

/// The field of this ciphertext under this head; the IV becomes its MAC.
pub fn field_of(session: &mut Session, head: &Block, ciphertext: &[u8]) -> Vec<u8> {
    session.iv = mac(&session.mac_key, head, ciphertext);
    [&session.iv, ciphertext].concat()
}

/// The terminal's sealing: the whole command.
pub fn seal_command(session: &mut Session, header: [u8; HEADER_BYTES], data: &[u8]) -> Vec<u8> {
    let ciphertext = encrypt(&session.enc_key, &session.iv, &pad(data));
    let field_bytes = BLOCK_BYTES + ciphertext.len();
    let field = field_of(session, &command_head(header, field_bytes), &ciphertext);
    [&header[..], &[field_bytes as u8], &field].concat()
}

/// The card's sealing: the field of the response.
pub fn seal_response(session: &mut Session, data: &[u8]) -> Vec<u8> {
    let ciphertext = encrypt(&session.enc_key, &session.iv, &pad(data));
    let head = response_head(BLOCK_BYTES + ciphertext.len());
    field_of(session, &head, &ciphertext)
}

/// Opening at the card.
pub fn open_command(session: &mut Session, header: [u8; HEADER_BYTES], field: &[u8]) -> Option<Vec<u8>> {
    is_field_length(field.len()).then_some(())?;
    open(session, &command_head(header, field.len()), field)
}

/// Opening at the terminal: also requires the plain 9000 after the field, and two bytes inside.
pub fn open_response(session: &mut Session, response: &[u8]) -> Option<Vec<u8>> {
    let field = response.strip_suffix(&[0x90, 0x00])?;
    is_field_length(field.len()).then_some(())?;
    let mut next = *session;
    let data = open(&mut next, &response_head(field.len()), field)?;
    if data.len() < 2 {
        return None;
    }
    *session = next;
    Some(data)
}

fn is_field_length(bytes: usize) -> bool {
    (MIN_FIELD_BYTES..=MAX_FIELD_BYTES).contains(&bytes) && bytes % BLOCK_BYTES == 0
}

/// MAC first, then padding. The IV becomes the MAC of what was opened; where opening fails the session stays.
fn open(session: &mut Session, head: &Block, field: &[u8]) -> Option<Vec<u8>> {
    let (tag, ciphertext) = field.split_at(BLOCK_BYTES);
    let wanted = mac(&session.mac_key, head, ciphertext);
    if tag != wanted {
        return None;
    }
    let data = unpad(&decrypt(&session.enc_key, &session.iv, ciphertext))?;
    session.iv = wanted;
    Some(data)
}
