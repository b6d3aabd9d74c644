//! Whole lives of cards: from FRESH, a stored record or any sound state, through commands, resets and stored records, with unsound cards and
//! single messages and templates in between. The same life comes from the same seed and number.

use crate::both::{hex, Both};
use crate::host::{room, short_room, supply_for, Way};
use crate::may_occur::name_of;
use crate::records::random_record;
use crate::requests;
use crate::states::{sound_card, unsound_card};
use crate::templates::walk_input;
use crate::terminal::{messages_alone, Terminal};
use crate::word_numbers::{random_words, wrong_words};
use outside::model::card::Card;
use outside::model::commands::Name;
use outside::model::engine::*;
use outside::model::record::record_of;
use outside::model::status::SUCCESS;
use outside::random::choice::{array, chance, damaged, pick, some_bytes};
use outside::random::Random;

const LEAST_STEPS: usize = 20;
const MOST_STEPS: usize = 200;
/// WALK and READ take little time.
const WALKS: usize = 5;
const READS: usize = 5;

/// The life with this number.
pub fn live(both: &mut Both, seed: u64, number: u64) {
    both.walk = format!("life {number} of seed {seed:#x}");
    let mut random = Random::new(Random::new(seed ^ number.rotate_left(32)).number());
    let random = &mut random;
    let mut card = begin(both, random);
    let mut terminal = Terminal::new(random, &card);
    for _ in 0..LEAST_STEPS + random.below(MOST_STEPS - LEAST_STEPS) {
        match random.below(100) {
            0 => drop(both.reset(&mut card)),
            1 | 2 => store(both, random, &mut card),
            3 | 4 => read_some(both, random, &card),
            5..=7 => try_unsound(both, random, &card),
            8 | 9 => walk_some(both, random),
            10 | 11 => messages_alone(both, random),
            12 | 13 => reverse_some(both, random),
            _ => exchange(both, random, &mut terminal, &mut card),
        }
    }
    both.sound(&card);
}

fn begin(both: &mut Both, random: &mut Random) -> Card {
    match random.below(4) {
        0 => sound_card(random),
        1 => both.read(&record_of(&sound_card(random))).1,
        _ => both.fresh(array(random), array(random)),
    }
}

/// One command from ASK to the opened answer. Calls that are refused come first, and the same command is then sent again.
fn exchange(both: &mut Both, random: &mut Random, terminal: &mut Terminal, card: &mut Card) {
    let command = terminal.command(both, random, card);
    if chance(random, 5) {
        let mut buffer = short_room(random, ASK_ROOM_BYTES);
        both.ask(card, &command, &mut buffer);
    }
    if chance(random, 60) {
        let mut buffer = room(random, ASK_ROOM_BYTES);
        both.ask(card, &command, &mut buffer);
    }
    if chance(random, 10) {
        refused_answers(both, random, terminal, card, &command);
    }
    let way = pick(random, &[Way::Right, Way::Right, Way::Right, Way::Right, Way::Right, Way::Refusing]);
    let supply = supply_for(random, card, &command, &terminal.init_key, way);
    let mut buffer = room(random, ANSWER_ROOM_BYTES);
    let answered = both.answer(card, &command, &supply, &mut buffer);
    let is_phrase = name_of(&command) == Some(Name::Mnemonic) && answered.status == Some(SUCCESS);
    if answered.sealed || chance(random, 10) {
        let opened = terminal.receive(both, random, &buffer[..answered.told.count]);
        if let Some(words) = opened.strip_suffix(&[0x90, 0x00]).filter(|_| is_phrase) {
            reverse(both, random, words, &supply);
        }
    } else {
        terminal.received_plain(card);
    }
}

/// The entropy of the word numbers that a card answered is the supply that they were made of; with damage now and then before.
fn reverse(both: &mut Both, random: &mut Random, words: &[u8], supply: &[u8]) {
    if chance(random, 50) {
        let words = damaged(random, words);
        both.entropy(&words, &mut room(random, ENTROPY_ROOM_BYTES));
    }
    let mut buffer = room(random, ENTROPY_ROOM_BYTES);
    let told = both.entropy(words, &mut buffer);
    if &buffer[..told.count] != supply {
        println!("THE WORD NUMBERS {} in {} are not those of {}", hex(words), both.walk, hex(supply));
        std::process::exit(1);
    }
}

/// ENTROPY on its own: right words, wrong ones, and any bytes.
fn reverse_some(both: &mut Both, random: &mut Random) {
    for words in [random_words(random), wrong_words(random), some_bytes(random, 0, 60)] {
        let mut buffer = match random.below(5) {
            0 => short_room(random, ENTROPY_ROOM_BYTES),
            _ => room(random, ENTROPY_ROOM_BYTES),
        };
        both.entropy(&words, &mut buffer);
    }
}

/// Too short a buffer, with a right or a wrong supply; then a wrong supply, which by chance can be right.
fn refused_answers(both: &mut Both, random: &mut Random, terminal: &Terminal, card: &mut Card, command: &[u8]) {
    let way = pick(random, &[Way::Right, Way::Wrong]);
    let supply = supply_for(random, card, command, &terminal.init_key, way);
    let mut buffer = short_room(random, ANSWER_ROOM_BYTES);
    both.answer(card, command, &supply, &mut buffer);
    let supply = supply_for(random, card, command, &terminal.init_key, Way::Wrong);
    let mut buffer = room(random, ANSWER_ROOM_BYTES);
    both.answer(&mut card.clone(), command, &supply, &mut buffer);
}

/// WRITE, then READ of what it wrote: a card goes on from its record as after a reset.
fn store(both: &mut Both, random: &mut Random, card: &mut Card) {
    if chance(random, 30) {
        let mut buffer = short_room(random, WRITE_ROOM_BYTES);
        both.write(card, &mut buffer);
    }
    let mut buffer = room(random, WRITE_ROOM_BYTES);
    let told = both.write(card, &mut buffer);
    let record = &buffer[..told.count];
    let (_, read) = both.read(record);
    both.tap(record, &some_bytes(random, 0, 300));
    both.read(&damaged(random, record));
    if chance(random, 50) {
        *card = read;
    }
}

fn read_some(both: &mut Both, random: &mut Random, card: &Card) {
    for _ in 0..READS {
        let record = random_record(random, card);
        both.read(&record);
        both.tap(&record, &some_bytes(random, 0, 300));
    }
}

fn walk_some(both: &mut Both, random: &mut Random) {
    for _ in 0..WALKS {
        let input = walk_input(random);
        both.walk(&input);
    }
}

/// Every operation on a card that is mostly unsound, with buffers of any length.
fn try_unsound(both: &mut Both, random: &mut Random, card: &Card) {
    let mut odd = unsound_card(random, card);
    let is_sound = both.sound(&odd);
    let name = pick(random, &[Name::Select, Name::Init, Name::Open]);
    let key = array(random);
    let request = requests::right(random, card, name, &key);
    let command = pick(random, &[&request.plain()[..], &[], &[0x80, 0xf2, 0x00, 0x00]]).to_vec();
    for operation in 0..4 {
        let short = chance(random, 30);
        let mut buffer = if short {
            short_room(random, ASK_ROOM_BYTES)
        } else {
            room(random, WRITE_ROOM_BYTES)
        };
        let mut copy = odd;
        match operation {
            0 => drop(both.reset(&mut copy)),
            1 => drop(both.ask(&odd, &command, &mut buffer)),
            2 => drop(both.write(&odd, &mut buffer)),
            _ => {
                let supply = if is_sound { Vec::new() } else { some_bytes(random, 0, 140) };
                both.answer(&mut odd, &command, &supply, &mut buffer);
            }
        }
    }
}
