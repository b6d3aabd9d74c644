//! Words that mean bytes: pieces joined by dots, each of hexadecimal digits, one byte repeated, rising bytes, or the bytes last written.

/// The most bytes that a word can mean, and the greatest number in it.
pub const MOST_BYTES: usize = 1024;
const MOST_DIGITS: usize = 4;

#[derive(PartialEq, Eq, Debug)]
pub enum Fault {
    Form,
    TooMany,
}

/// The bytes that a word means, read piece by piece from the left: the first fault decides.
pub fn bytes_of(word: &[u8], last: &[u8]) -> Result<Vec<u8>, Fault> {
    let mut bytes = Vec::new();
    if word == b"-" {
        return Ok(bytes);
    }
    for piece in word.split(|&b| b == b'.') {
        bytes.extend(piece_of(piece, last).ok_or(Fault::Form)?);
        if bytes.len() > MOST_BYTES {
            return Err(Fault::TooMany);
        }
    }
    Ok(bytes)
}

fn piece_of(piece: &[u8], last: &[u8]) -> Option<Vec<u8>> {
    if piece == b"last" {
        return Some(last.to_vec());
    }
    match piece {
        [high, low, b'*', digits @ ..] => Some(vec![byte_of(*high, *low)?; number_of(digits)?]),
        [high, low, b'+', digits @ ..] => Some(rising(byte_of(*high, *low)?, number_of(digits)?)),
        _ => hexadecimal(piece),
    }
}

/// After FF comes 00.
fn rising(first: u8, count: usize) -> Vec<u8> {
    (0..count).map(|i| first.wrapping_add(i as u8)).collect()
}

fn hexadecimal(piece: &[u8]) -> Option<Vec<u8>> {
    if piece.is_empty() || piece.len() % 2 != 0 {
        return None;
    }
    piece.chunks_exact(2).map(|pair| byte_of(pair[0], pair[1])).collect()
}

fn byte_of(high: u8, low: u8) -> Option<u8> {
    let digit = |b: u8| (b as char).to_digit(16);
    Some((digit(high)? * 16 + digit(low)?) as u8)
}

/// A decimal number of 1 to 4 digits, 0 to 1024.
pub fn number_of(digits: &[u8]) -> Option<usize> {
    if digits.is_empty() || digits.len() > MOST_DIGITS || !digits.iter().all(u8::is_ascii_digit) {
        return None;
    }
    let number = digits.iter().fold(0, |sum, &b| sum * 10 + usize::from(b - b'0'));
    (number <= MOST_BYTES).then_some(number)
}
