//! Where the first fault of a template lies, found apart from the model, and what ANSWER's number has to be for it (RULES 9.3 and 5.9).
//! Every WALK and every ANSWER of a run is held to this. Lengths and offsets are in bytes.

use crate::may_occur::{form_of, name_of, Form};
use outside::model::card::{Card, AUTHENTICATED, YES};
use outside::model::commands::Name;
use outside::model::engine::NO_FAULT;
use outside::model::message::{open_command, HEADER_BYTES};
use outside::model::status::{MALFORMED, NOT_REFUSED, SUCCESS, TOO_DEEP, WRONG_DATA};

/// The refusal of WALK and the offset of the faulty field's tag, none where there is no fault. One pass from left to right over the ends of
/// the sequences that are open, the input's own first.
pub fn first_fault(input: &[u8]) -> Option<(u8, usize)> {
    let mut ends = vec![input.len()];
    let mut at = 0;
    while let Some(&end) = ends.last() {
        if at == end {
            ends.pop();
            continue;
        }
        let (value_at, value_bytes) = match input[at + 1..end] {
            [bytes @ 0..=0x7f, ..] => (at + 2, bytes),
            [0x81, bytes @ 0x80..=0xff, ..] => (at + 3, bytes),
            _ => return Some((MALFORMED, at)),
        };
        let value_end = value_at + usize::from(value_bytes);
        let is_template = input[at] & 0x20 != 0;
        match (is_template, ends.len()) {
            _ if value_end > end => return Some((MALFORMED, at)),
            (false, _) => at = value_end,
            (true, 1..=4) => {
                ends.push(value_end);
                at = value_at;
            }
            (true, _) => return Some((TOO_DEEP, at)),
        }
    }
    None
}

/// P1 and the opened data of a LOAD whose data are looked at, on this card: a listed P1 and P2, a verified PIN, and it opens.
fn loading(card: &Card, command: &[u8]) -> Option<(u8, Vec<u8>)> {
    let (header, lc_and_data) = command.split_first_chunk::<HEADER_BYTES>()?;
    let [_, _, p1, p2] = *header;
    let is_listed = matches!((p1, p2), (0x01..=0x03, 0x00));
    let is_made = matches!(form_of(command), Form::Data | Form::DataLe);
    let ready = (card.initialised, card.stage, card.verified) == (YES, AUTHENTICATED, YES);
    if name_of(command) != Some(Name::Load) || !is_listed || !is_made || !ready {
        return None;
    }
    let (&lc, data) = lc_and_data.split_first()?;
    let data = open_command(&mut card.session.clone(), *header, &data[..lc as usize])?;
    Some((p1, data))
}

/// ANSWER's number for this command on this card, where the call is refused with this number or with none.
pub fn wanted_number(card: &Card, command: &[u8], refusal: u8) -> usize {
    match loading(card, command) {
        Some((0x01 | 0x02, data)) if refusal == NOT_REFUSED => first_fault(&data).map_or(NO_FAULT, |(_, offset)| offset),
        _ => NO_FAULT,
    }
}

/// A LOAD whose data are looked at: P1, how WALK refuses the data, if it does, and the status word.
pub type Loaded = (u8, Option<u8>, u16);

pub fn loaded(card: &Card, command: &[u8], status: u16) -> Option<Loaded> {
    let (p1, data) = loading(card, command)?;
    Some((p1, first_fault(&data).map(|(refusal, _)| refusal), status))
}

/// With P1 01 and 02 a fault is always 6A80; a seed may have any bytes.
pub fn every_loaded() -> Vec<Loaded> {
    let faults = [None, Some(MALFORMED), Some(TOO_DEEP)];
    let rows = [0x01, 0x02, 0x03].into_iter().flat_map(|p1| faults.map(|fault| (p1, fault)));
    rows.flat_map(|(p1, fault)| [(p1, fault, WRONG_DATA), (p1, fault, SUCCESS)])
        .filter(|&(p1, fault, status)| p1 == 0x03 || fault.is_none() || status == WRONG_DATA)
        .collect()
}

/// How far from the input's start a fault is that WALK finds.
#[derive(Clone, Copy, PartialEq, Eq, PartialOrd, Ord, Debug)]
pub enum Far {
    AtStart,
    /// A byte can tell it.
    InAByte,
    /// Only more than a byte can.
    Further,
}

pub fn far(offset: usize) -> Far {
    match offset {
        0 => Far::AtStart,
        1..=255 => Far::InAByte,
        _ => Far::Further,
    }
}

/// WALK's refusals by how far the fault is. A template that is too deep has four heads before it.
pub const EVERY_FAR: [(u8, Far); 5] = [
    (MALFORMED, Far::AtStart),
    (MALFORMED, Far::InAByte),
    (MALFORMED, Far::Further),
    (TOO_DEEP, Far::InAByte),
    (TOO_DEEP, Far::Further),
];
