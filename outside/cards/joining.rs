//! Parts joined and resets repeated, on library and model: WALK of accepted parts joined counts the sum of their fields, and with a refused
//! part after them gives that one's refusal, at its offset after them (RULES 9.7); RESET twice is RESET once (RULES 3.9). Lengths are in
//! bytes.

use crate::both::{hex, Both};
use crate::directed::ready_card;
use crate::may_occur::EVERY_SITUATION;
use crate::states::{sound_card, unsound_card};
use crate::tally::lacking;
use crate::templates::walk_input;
use outside::ffi::treadlewisp::card_bytes;
use outside::model::card::Card;
use outside::model::engine::Walked;
use outside::model::status::*;
use outside::random::Random;
use std::collections::BTreeMap;

const JOINS: usize = 400;
const MOST_PARTS: usize = 4;
const CARDS: usize = 400;
/// A count of fields that needs more than one byte.
const MANY_FIELDS: usize = 256;

/// What has to occur.
#[derive(PartialEq, Eq, PartialOrd, Ord, Debug)]
enum Met {
    NoBytes,
    NoFields,
    ManyFields,
    Refused(u8),
    Reset(u8),
}

pub fn run(both: &mut Both, seed: u64) {
    both.walk = "joining".to_string();
    let mut random = Random::new(seed.rotate_left(17));
    let random = &mut random;
    let mut met = BTreeMap::new();
    for _ in 0..JOINS {
        join(both, random, &mut met);
    }
    for situation in EVERY_SITUATION {
        reset_twice(both, &ready_card(random, situation), &mut met);
    }
    for _ in 0..CARDS {
        let card = sound_card(random);
        reset_twice(both, &card, &mut met);
        reset_twice(both, &unsound_card(random, &card), &mut met);
    }
    let wanted = [
        Met::NoBytes,
        Met::NoFields,
        Met::ManyFields,
        Met::Refused(MALFORMED),
        Met::Refused(TOO_DEEP),
        Met::Reset(NOT_REFUSED),
        Met::Reset(UNSOUND),
    ];
    let missing = lacking("joining", &met, wanted);
    if !missing.is_empty() {
        println!("NEVER OCCURRED: {}", missing.join(", "));
        std::process::exit(1);
    }
}

/// A random input that WALK takes, or one that it refuses.
fn part(both: &mut Both, random: &mut Random, accepted: bool) -> (Vec<u8>, Walked) {
    loop {
        let input = walk_input(random);
        let walked = both.walk(&input);
        if (walked.refusal == NOT_REFUSED) == accepted {
            return (input, walked);
        }
    }
}

/// Two to four accepted parts joined, and then one that is refused after them.
fn join(both: &mut Both, random: &mut Random, met: &mut BTreeMap<Met, usize>) {
    let (mut joined, mut fields) = (Vec::new(), 0);
    for _ in 0..2 + random.below(MOST_PARTS - 1) {
        let (input, walked) = part(both, random, true);
        if walked.count == 0 {
            let kind = if input.is_empty() { Met::NoBytes } else { Met::NoFields };
            *met.entry(kind).or_default() += 1;
        }
        joined.extend(input);
        fields += walked.count;
    }
    expect_walk(both, &joined, (NOT_REFUSED, fields, 0));
    if fields >= MANY_FIELDS {
        *met.entry(Met::ManyFields).or_default() += 1;
    }
    let (input, walked) = part(both, random, false);
    let offset = joined.len() + walked.fault_offset;
    joined.extend(input);
    expect_walk(both, &joined, (walked.refusal, 0, offset));
    *met.entry(Met::Refused(walked.refusal)).or_default() += 1;
}

/// Refusal, number of fields and fault offset.
fn expect_walk(both: &mut Both, input: &[u8], wanted: (u8, usize, usize)) {
    let walked = both.walk(input);
    if (walked.refusal, walked.count, walked.fault_offset) != wanted {
        println!("JOINED PARTS gave {walked:?} instead of {wanted:?}: {}", hex(input));
        std::process::exit(1);
    }
}

/// A second RESET gives what the first gave and changes no byte; an unsound card is as it was given both times.
fn reset_twice(both: &mut Both, card: &Card, met: &mut BTreeMap<Met, usize>) {
    let mut once = *card;
    let first = both.reset(&mut once);
    let mut twice = once;
    let second = both.reset(&mut twice);
    let is_kept = first == NOT_REFUSED || card_bytes(&once) == card_bytes(card);
    if second != first || card_bytes(&twice) != card_bytes(&once) || !is_kept {
        println!(
            "RESET TWICE gave refusal {first}, then {second}, for the card {}",
            hex(&card_bytes(card))
        );
        std::process::exit(1);
    }
    *met.entry(Met::Reset(first)).or_default() += 1;
}
