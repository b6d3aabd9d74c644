//! The lines of a script: each ends with LF, the last may lack it, and a CR before that end is not part of it. Lengths are in bytes.

pub const MOST_LINE_BYTES: usize = 4096;

#[derive(PartialEq, Eq, Debug)]
pub enum Line<'a> {
    /// More than 4096 bytes, a CR counted.
    TooLong,
    Blank,
    Comment(&'a [u8]),
    /// A call, right or not.
    Call(&'a [u8]),
}

pub fn lines_of(input: &[u8]) -> Vec<Line<'_>> {
    let mut pieces: Vec<&[u8]> = input.split(|&b| b == b'\n').collect();
    if pieces.last().is_some_and(|last| last.is_empty()) {
        pieces.pop();
    }
    pieces.into_iter().map(line_of).collect()
}

fn line_of(piece: &[u8]) -> Line<'_> {
    if piece.len() > MOST_LINE_BYTES {
        return Line::TooLong;
    }
    let text = piece.strip_suffix(b"\r").unwrap_or(piece);
    match text.iter().find(|&&b| !is_space(b)) {
        None => Line::Blank,
        Some(b'#') => Line::Comment(text),
        Some(_) => Line::Call(text),
    }
}

fn is_space(b: u8) -> bool {
    b == b' ' || b == b'\t'
}

/// The words of a line, with spaces and tabs between them.
pub fn words_of(text: &[u8]) -> Vec<&[u8]> {
    text.split(|&b| is_space(b)).filter(|word| !word.is_empty()).collect()
}
