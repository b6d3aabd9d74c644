//! The two runs of demand 3 as a test: two cards that agree in all but PIN and PUK go through the same ASK, ANSWER and RESET calls. Wherever
//! both compare, the outcomes are alike; then everything that the calls give is the same, and the cards still agree in all but PIN and PUK.

use crate::both::{hex, Both};
use crate::directed::{self, ready_card, Trial};
use crate::exports::{self, Call};
use crate::host::{room, short_room, supplied_as, supply_for, supply_of, Way};
use crate::keypairs::{nested, Template, BROKEN};
use crate::may_occur::{every_exported, every_supplied, name_of, situation_of, Operation, Situation};
use crate::paths::path_at;
use crate::requests::Request;
use crate::sending::sealed;
use crate::states::sound_card;
use crate::tally::{every_row, lacking, Row};
use crate::terminal::Terminal;
use crate::word_numbers::EVERY_CHECKSUM_BITS;
use outside::ffi::treadlewisp::card_bytes;
use outside::model::card::{Card, AUTHENTICATED, NO, PIN_BYTES, PIN_TRIES, PUK_BYTES, PUK_TRIES, YES};
use outside::model::commands::{supply_of_kind, Comparison, Name, FOR_EXPORT, FOR_MNEMONIC};
use outside::model::engine::{self, ANSWER_ROOM_BYTES, ASK_ROOM_BYTES};
use outside::model::status::*;
use outside::random::choice::{array, chance, digits, pick};
use outside::random::Random;
use std::collections::BTreeMap;

const LEAST_STEPS: usize = 10;
const MOST_STEPS: usize = 80;

/// What the pairs did.
#[derive(Default)]
pub struct Done {
    pub pairs: usize,
    pub calls: usize,
    /// Calls that were left out: the comparisons that both cards would make come out differently.
    pub left_out: usize,
    /// Comparisons in both runs, while the entries that are compared with were different, and while they were the same.
    pub compared: BTreeMap<(Comparison, bool), usize>,
    /// Refusals of the calls on both.
    refusals: BTreeMap<(Operation, u8), usize>,
    /// Answers on both.
    answers: BTreeMap<Row, usize>,
}

impl Done {
    /// What should have occurred and did not: a comparison comes out right in both runs only where both cards have the same entry.
    pub fn missing(&self) -> Vec<String> {
        let wanted = [
            (Comparison::Pin(true), true),
            (Comparison::Pin(false), true),
            (Comparison::Pin(false), false),
            (Comparison::Puk(true), true),
            (Comparison::Puk(false), true),
            (Comparison::Puk(false), false),
        ];
        let mut missing = Vec::new();
        missing.extend(lacking("comparison, the same entry on both", &self.compared, wanted));
        missing.extend(lacking("refusal", &self.refusals, REFUSALS_ON_BOTH));
        missing.extend(lacking("answer", &self.answers, rows_of_pairs()));
        missing.into_iter().map(|what| format!("two runs: {what}")).collect()
    }

    fn refusal(&mut self, operation: Operation, refusal: u8) {
        self.calls += 1;
        *self.refusals.entry((operation, refusal)).or_default() += 1;
    }

    pub fn print(&self) {
        println!(
            "two runs: {} pairs of cards, {} calls on both, alike but for PIN and PUK",
            self.pairs, self.calls
        );
        println!("  {} calls left out, whose comparisons come out differently", self.left_out);
        for ((operation, refusal), count) in &self.refusals {
            println!("  {operation:?} with refusal {refusal} on both: {count}");
        }
        println!("  {} rows of command, situation and status word on both", self.answers.len());
        for ((comparison, same), count) in &self.compared {
            let entries = if *same { "the same entry" } else { "different entries" };
            println!("  {comparison:?} in both runs, with {entries} on the cards: {count}");
        }
    }
}

/// The cards are sound, so none of these is refused as unsound.
const REFUSALS_ON_BOTH: [(Operation, u8); 6] = [
    (Operation::Reset, NOT_REFUSED),
    (Operation::Ask, NOT_REFUSED),
    (Operation::Ask, SHORT_BUFFER),
    (Operation::Answer, NOT_REFUSED),
    (Operation::Answer, SHORT_BUFFER),
    (Operation::Answer, WRONG_SUPPLY),
];

/// The rows that two cards can meet: pre-initialised ones have no PIN and PUK to differ in.
fn rows_of_pairs() -> Vec<Row> {
    let rows = every_row().into_iter();
    rows.filter(|(_, situation, ..)| *situation != Situation::PreInitialised).collect()
}

/// Two cards under the same calls.
struct Two {
    first: Card,
    second: Card,
}

/// The pair with this number.
pub fn run(both: &mut Both, done: &mut Done, seed: u64, number: u64) {
    both.walk = format!("pair {number} of seed {seed:#x}");
    let mut random = Random::new(Random::new(!seed ^ number.rotate_left(32)).number());
    let random = &mut random;
    let mut two = begin(random);
    let mut terminal = Terminal::new(random, &two.first);
    done.pairs += 1;
    for _ in 0..LEAST_STEPS + random.below(MOST_STEPS - LEAST_STEPS) {
        if chance(random, 2) {
            let refusals = (both.reset(&mut two.first), both.reset(&mut two.second));
            same(both, refusals.0 == refusals.1, "RESET's refusal");
            done.refusal(Operation::Reset, refusals.0);
        } else {
            exchange(both, random, done, &mut terminal, &mut two);
        }
        agree(both, &two);
    }
}

/// Two cards that agree in all but PIN, PUK or both.
fn begin(random: &mut Random) -> Two {
    let mut first = sound_card(random);
    if chance(random, 50) {
        first.stage = AUTHENTICATED;
        first.forget_pending();
        first.session.enc_key = array(random);
        first.session.mac_key = array(random);
    }
    match random.below(4) {
        0 if first.stage == AUTHENTICATED => (first.verified, first.pin_tries) = (YES, PIN_TRIES),
        1 => (first.verified, first.pin_tries, first.puk_tries) = (NO, 0, PUK_TRIES),
        _ => {}
    }
    let differ = random.below(3);
    twins(random, first, differ != 1, differ != 0)
}

/// This card, and one with another PIN, PUK or both.
fn twins(random: &mut Random, first: Card, other_pin: bool, other_puk: bool) -> Two {
    let mut second = first;
    if other_pin {
        second.pin = digits(random);
    }
    if other_puk {
        second.puk = digits(random);
    }
    Two { first, second }
}

/// Each row on two cards: they differ in PIN and PUK, or in the one that is not compared where the comparison comes out right.
pub fn directed(both: &mut Both, done: &mut Done, seed: u64) {
    both.walk = "the directed pairs".to_string();
    let mut random = Random::new(seed.rotate_left(43));
    let random = &mut random;
    for row in rows_of_pairs() {
        let Trial { card, command, supply } = directed::trial(both, random, row);
        let right = |name| row.0 == Some(name) && row.2 == SUCCESS;
        let mut two = twins(random, card, !right(Name::Verify), !right(Name::Unblock));
        call_both(both, random, done, &mut two, &command, &supply);
    }
    directed_exports(both, random, done);
    directed_faults(both, random, done);
    directed_phrases(both, random, done);
}

/// LOAD with each P1 and a fault at each tag of a template, too deep or not, on two cards with different PIN and PUK.
fn directed_faults(both: &mut Both, random: &mut Random, done: &mut Done) {
    for (p1, with_public_key) in [0x01, 0x02, 0x03].iter().flat_map(|&p1| [(p1, false), (p1, true)]) {
        let template = Template::of(random, p1, with_public_key);
        let mut broken = vec![[&template.bytes[..], &BROKEN].concat(), nested(5, &[]), template.bytes.clone()];
        for &tag in &template.tags {
            let mut data = template.bytes.clone();
            data[tag + 1] = 0xff;
            broken.push(data);
        }
        for data in broken {
            let card = ready_card(random, Situation::Authenticated);
            let command = sealed(&card, &Request::new(Name::Load, p1, &data));
            let mut two = twins(random, card, true, true);
            let supply = supply_for(random, &two.first, &command, &[0; 32], Way::Right);
            call_both(both, random, done, &mut two, &command, &supply);
        }
    }
}

/// GENERATE MNEMONIC with each P1 on two cards with different PIN and PUK, with every way of one supply for both.
fn directed_phrases(both: &mut Both, random: &mut Random, done: &mut Done) {
    for p1 in EVERY_CHECKSUM_BITS {
        for way in every_supplied(FOR_MNEMONIC) {
            let mut card = ready_card(random, Situation::Authenticated);
            card.verified = pick(random, &[NO, YES]);
            let command = sealed(&card, &Request::new(Name::Mnemonic, p1, &[]));
            let mut two = twins(random, card, true, true);
            let supply = supplied_as(random, &supply_of_kind(FOR_MNEMONIC, p1), &[0; 32], way);
            call_both(both, random, done, &mut two, &command, &supply);
        }
    }
}

/// EXPORT with each P1 and P2 and each place of the path on two cards with different PIN and PUK, with every way of one supply for both.
fn directed_exports(both: &mut Both, random: &mut Random, done: &mut Done) {
    for (p1, p2, place) in every_exported() {
        for way in every_supplied(FOR_EXPORT) {
            let path = path_at(random, place);
            let call = exports::call(random, p1, p2, &path);
            let command = call.command();
            let Call { card, .. } = call;
            let mut two = twins(random, card, true, true);
            let supply = supply_of(random, FOR_EXPORT, &[0; 32], way);
            call_both(both, random, done, &mut two, &command, &supply);
        }
    }
}

/// A directed pair: one command with one supply on both cards.
fn call_both(both: &mut Both, random: &mut Random, done: &mut Done, two: &mut Two, command: &[u8], supply: &[u8]) {
    done.pairs += 1;
    ask_both(both, random, done, two, command);
    let buffer = room(random, ANSWER_ROOM_BYTES);
    answer_both(both, done, two, command, supply, buffer);
    agree(both, two);
}

fn exchange(both: &mut Both, random: &mut Random, done: &mut Done, terminal: &mut Terminal, two: &mut Two) {
    let guide = if chance(random, 50) { two.first } else { two.second };
    let command = terminal.command(both, random, &guide);
    ask_both(both, random, done, two, &command);
    let way = pick(random, &[Way::Right, Way::Right, Way::Right, Way::Right, Way::Refusing, Way::Wrong]);
    let supply = supply_for(random, &two.first, &command, &terminal.init_key, way);
    let short = chance(random, 5);
    let buffer = if short {
        short_room(random, ANSWER_ROOM_BYTES)
    } else {
        room(random, ANSWER_ROOM_BYTES)
    };
    match answer_both(both, done, two, &command, &supply, buffer) {
        None => terminal.go_back(),
        Some((true, response)) => drop(terminal.receive(both, random, &response)),
        Some((false, _)) => terminal.received_plain(&two.first),
    }
}

/// Whether the answer was sealed, and the response; none where the call does not belong to the list.
fn answer_both(both: &mut Both, done: &mut Done, two: &mut Two, command: &[u8], supply: &[u8], buffer: Vec<u8>) -> Option<(bool, Vec<u8>)> {
    if !alike(both, done, two, command, supply, &buffer) {
        done.left_out += 1;
        return None;
    }
    let situation = situation_of(&two.first);
    let (mut first, mut second) = (buffer.clone(), buffer);
    let of_first = both.answer(&mut two.first, command, supply, &mut first);
    let of_second = both.answer(&mut two.second, command, supply, &mut second);
    same(both, of_first.told == of_second.told, "ANSWER's refusal and count");
    same(both, of_first.fault_offset == of_second.fault_offset, "ANSWER's number");
    same(both, first == second, "ANSWER's buffer");
    done.refusal(Operation::Answer, of_first.told.refusal);
    if let Some(status) = of_first.status {
        let row = (name_of(command), situation, status, of_first.sealed);
        *done.answers.entry(row).or_default() += 1;
    }
    first.truncate(of_first.told.count);
    Some((of_first.sealed, first))
}

fn ask_both(both: &mut Both, random: &mut Random, done: &mut Done, two: &Two, command: &[u8]) {
    let short = chance(random, 5);
    let mut first = if short {
        short_room(random, ASK_ROOM_BYTES)
    } else {
        room(random, ASK_ROOM_BYTES)
    };
    let mut second = first.clone();
    let of_first = both.ask(&two.first, command, &mut first);
    let of_second = both.ask(&two.second, command, &mut second);
    same(both, of_first == of_second, "ASK's refusal, kind and count");
    same(both, first == second, "ASK's buffer");
    done.refusal(Operation::Ask, of_first.refusal);
}

/// Whether the call belongs to the list: both runs compare or neither does, which must be so, and the outcomes are alike.
fn alike(both: &Both, done: &mut Done, two: &Two, command: &[u8], supply: &[u8], buffer: &[u8]) -> bool {
    let comparison = |card: &Card| engine::answer(&mut card.clone(), command, supply, &mut buffer.to_vec()).comparison;
    let (first, second) = (comparison(&two.first), comparison(&two.second));
    same(both, first.is_some() == second.is_some(), "whether a comparison is made");
    let (Some(first), Some(second)) = (first, second) else {
        return true;
    };
    if first == second {
        let same_entry = match first {
            Comparison::Pin(_) => two.first.pin == two.second.pin,
            Comparison::Puk(_) => two.first.puk == two.second.puk,
        };
        *done.compared.entry((first, same_entry)).or_default() += 1;
    }
    first == second
}

/// The cards agree in all but PIN and PUK.
fn agree(both: &Both, two: &Two) {
    let without = |card: &Card| Card {
        pin: [0; PIN_BYTES],
        puk: [0; PUK_BYTES],
        ..*card
    };
    if without(&two.first) != without(&two.second) {
        println!("  first   {}", hex(&card_bytes(&two.first)));
        println!("  second  {}", hex(&card_bytes(&two.second)));
        same(both, false, "the cards but for PIN and PUK");
    }
}

fn same(both: &Both, holds: bool, what: &str) {
    if !holds {
        println!("THE TWO RUNS DIFFER in {}, call {}: {what}", both.walk, both.tally.calls());
        std::process::exit(1);
    }
}
