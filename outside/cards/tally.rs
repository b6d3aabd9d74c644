//! How often each operation was called and what came of it, beside the tables of what can occur: a row that never occurred is missing, and
//! an answer that has no row is one too many.

use crate::faults::{every_loaded, far, loaded, Far, Loaded, EVERY_FAR};
use crate::may_occur::*;
use crate::standing::{every_verified_row, Standing, VerifiedRow, PASSAGES};
use crate::word_numbers::{count_of_p1, count_of_words, every_phrased, Phrased, EVERY_COUNT};
use outside::model::card::Card;
use outside::model::commands::{Comparison, Name, Supply};
use outside::model::engine::{Answered, Asked, Source, Walked};
use outside::model::status::*;
use std::collections::BTreeMap;
use std::fmt::Debug;

const COMPARISONS: [Comparison; 4] = [
    Comparison::Pin(true),
    Comparison::Pin(false),
    Comparison::Puk(true),
    Comparison::Puk(false),
];

/// An answer: the command, the card's situation, the status word, and whether it was sealed.
pub type Row = (Option<Name>, Situation, u16, bool);

#[derive(Default)]
pub struct Tally {
    operations: BTreeMap<(Operation, u8), usize>,
    rooms: BTreeMap<(Operation, Room), usize>,
    /// UNSEAL's refusals by the Lr of the response.
    responses: BTreeMap<(Lr, u8), usize>,
    /// Calls on a sound card, by its situation.
    situations: BTreeMap<(Operation, Situation), usize>,
    /// ASK's kinds, by the card's situation.
    kinds: BTreeMap<(Situation, u8), usize>,
    comparisons: BTreeMap<Comparison, usize>,
    answers: BTreeMap<Row, usize>,
    /// How the card stood before an answer and after it.
    passages: BTreeMap<(Standing, Standing), usize>,
    /// Answers that a card with a verified PIN got.
    verified: BTreeMap<VerifiedRow, usize>,
    forms: BTreeMap<(Situation, Form), usize>,
    /// Status words of EXPORT past its data.
    exports: BTreeMap<(Exported, u16), usize>,
    /// What the tap read gave, by the record that it was lent.
    taps: BTreeMap<(Recorded, (u8, Source)), usize>,
    /// Successes that have to do with the slots.
    slots: BTreeMap<Slotted, usize>,
    /// Status words of LOAD past its PIN, by P1 and the fault of the data.
    loads: BTreeMap<Loaded, usize>,
    /// WALK's refusals by how far the fault is.
    walks: BTreeMap<(u8, Far), usize>,
    /// Supplies by the kind that was read.
    supplies: BTreeMap<(u8, Supplied), usize>,
    /// Word numbers, by their count.
    phrases: BTreeMap<Phrased, usize>,
}

impl Tally {
    pub fn calls(&self) -> usize {
        self.operations.values().sum()
    }

    pub fn operation(&mut self, operation: Operation, refusal: u8) {
        *self.operations.entry((operation, refusal)).or_default() += 1;
    }

    pub fn room(&mut self, operation: Operation, bytes: usize) {
        if let Some(room) = room_of(operation, bytes) {
            *self.rooms.entry((operation, room)).or_default() += 1;
        }
    }

    /// What UNSEAL gave for a response with this Lr.
    pub fn response(&mut self, lr: Lr, refusal: u8) {
        *self.responses.entry((lr, refusal)).or_default() += 1;
    }

    /// What the tap read gave for this record.
    pub fn tap(&mut self, record: &[u8], refusal: u8, source: Source) {
        *self.taps.entry((recorded(record), (refusal, source))).or_default() += 1;
    }

    /// The fault that WALK found, if it did.
    pub fn walked(&mut self, walked: Walked) {
        if walked.refusal != NOT_REFUSED {
            *self.walks.entry((walked.refusal, far(walked.fault_offset))).or_default() += 1;
        }
    }

    /// A call that this card, as it was before, did not refuse as unsound.
    pub fn card(&mut self, operation: Operation, refusal: u8, card: &Card) {
        if refusal != UNSOUND {
            *self.situations.entry((operation, situation_of(card))).or_default() += 1;
        }
    }

    /// The kind that ASK told on this card, where it was not refused.
    pub fn kind(&mut self, card: &Card, asked: Asked) {
        if asked.refusal == NOT_REFUSED {
            *self.kinds.entry((situation_of(card), asked.kind)).or_default() += 1;
        }
    }

    /// A supply that was read, for a command that reads this one.
    pub fn supply(&mut self, wanted: &Supply, supply: &[u8]) {
        *self.supplies.entry((wanted.kind, supplied(wanted, supply))).or_default() += 1;
    }

    /// GENERATE MNEMONIC with this P1 read its supply.
    pub fn generated(&mut self, p1: u8, refusal: u8) {
        *self.phrases.entry((Operation::Answer, count_of_p1(p1), refusal)).or_default() += 1;
    }

    /// ENTROPY was given these word numbers, which are counted where they are so many that some entropy has.
    pub fn reversed(&mut self, words: &[u8], refusal: u8) {
        if let Some(count) = count_of_words(words) {
            *self.phrases.entry((Operation::Entropy, count, refusal)).or_default() += 1;
        }
    }

    /// What ANSWER gave on this card, as it was before.
    pub fn answer(&mut self, card: &Card, command: &[u8], answered: &Answered) {
        let Some(status) = answered.status else { return };
        let situation = situation_of(card);
        *self
            .answers
            .entry((name_of(command), situation, status, answered.sealed))
            .or_default() += 1;
        *self.forms.entry((situation, form_of(command))).or_default() += 1;
        if let Some(exported) = exported(card, command) {
            *self.exports.entry((exported, status)).or_default() += 1;
        }
        if let Some(loaded) = loaded(card, command, status) {
            *self.loads.entry(loaded).or_default() += 1;
        }
        let slotted = slotted(card, command).filter(|_| status == SUCCESS);
        if let Some(slotted) = slotted {
            *self.slots.entry(slotted).or_default() += 1;
        }
        if let Some(comparison) = answered.comparison {
            *self.comparisons.entry(comparison).or_default() += 1;
        }
    }

    /// An answer to a card that stood so and stands so now.
    pub fn passage(&mut self, before: Standing, after: Standing, row: VerifiedRow) {
        *self.passages.entry((before, after)).or_default() += 1;
        if before == Standing::Verified {
            *self.verified.entry(row).or_default() += 1;
        }
    }

    /// What has to occur and did not.
    pub fn missing(&self) -> Vec<String> {
        let mut missing = Vec::new();
        for (operation, refusals) in REFUSALS {
            missing.extend(lacking(
                "refusal",
                &self.operations,
                refusals.iter().map(|&refusal| (operation, refusal)),
            ));
        }
        for (operation, _) in ROOMS {
            missing.extend(lacking("buffer", &self.rooms, EVERY_ROOM.map(|room| (operation, room))));
        }
        for (lr, refusals) in RESPONSES {
            missing.extend(lacking("response", &self.responses, refusals.iter().map(|&refusal| (lr, refusal))));
        }
        for operation in [Operation::Reset, Operation::Ask, Operation::Answer, Operation::Write] {
            missing.extend(lacking(
                "sound card",
                &self.situations,
                EVERY_SITUATION.map(|situation| (operation, situation)),
            ));
        }
        missing.extend(lacking("comparison", &self.comparisons, COMPARISONS));
        missing.extend(lacking("answer", &self.answers, every_row()));
        missing.extend(lacking("answer to a verified card", &self.verified, every_verified_row()));
        for (before, after) in PASSAGES {
            missing.extend(lacking("passage", &self.passages, after.iter().map(|&after| (before, after))));
        }
        for situation in EVERY_SITUATION {
            missing.extend(lacking("kind", &self.kinds, kinds(situation).iter().map(|&kind| (situation, kind))));
            missing.extend(lacking("form", &self.forms, EVERY_FORM.map(|form| (situation, form))));
        }
        for exported in every_exported() {
            missing.extend(lacking(
                "export",
                &self.exports,
                export_words(exported).iter().map(|&status| (exported, status)),
            ));
        }
        missing.extend(lacking("slots", &self.slots, every_slotted()));
        missing.extend(lacking("word numbers", &self.phrases, every_phrased()));
        missing.extend(lacking("load", &self.loads, every_loaded()));
        missing.extend(lacking("fault of a walk", &self.walks, EVERY_FAR));
        missing.extend(lacking(
            "tap read",
            &self.taps,
            EVERY_RECORDED.map(|recorded| (recorded, tapped_of(recorded))),
        ));
        for kind in 1..=MOST_KIND {
            missing.extend(lacking(
                "supply",
                &self.supplies,
                every_supplied(kind).into_iter().map(|way| (kind, way)),
            ));
        }
        missing
    }

    /// Answers, passages, kinds, opened responses, slots, word numbers, loads and faults that the tables do not have.
    pub fn too_many(&self) -> Vec<String> {
        let (rows, verified, slotted, loaded) = (every_row(), every_verified_row(), every_slotted(), every_loaded());
        let phrased = every_phrased();
        let can_pass = |(before, after): &(Standing, Standing)| PASSAGES.iter().any(|row| row.0 == *before && row.1.contains(after));
        let can_be = |(lr, refusal): &(Lr, u8)| RESPONSES.iter().any(|row| row.0 == *lr && row.1.contains(refusal));
        [
            beyond("answer", &self.answers, |row| rows.contains(row)),
            beyond("answer to a verified card", &self.verified, |row| verified.contains(row)),
            beyond("passage", &self.passages, can_pass),
            beyond("kind", &self.kinds, |(situation, kind)| kinds(*situation).contains(kind)),
            beyond("response", &self.responses, can_be),
            beyond("export", &self.exports, |(exported, status)| {
                export_words(*exported).contains(status)
            }),
            beyond("tap read", &self.taps, |(recorded, tapped)| tapped_of(*recorded) == *tapped),
            beyond("slots", &self.slots, |row| slotted.contains(row)),
            beyond("word numbers", &self.phrases, |row| phrased.contains(row)),
            beyond("load", &self.loads, |row| loaded.contains(row)),
            beyond("fault of a walk", &self.walks, |row| EVERY_FAR.contains(row)),
        ]
        .concat()
    }

    pub fn print(&self) {
        println!("calls per operation, and of them per refusal (0: none):");
        for (operation, _) in REFUSALS {
            let of_it = self.operations.iter().filter(|((o, _), _)| *o == operation);
            let all: usize = of_it.clone().map(|(_, count)| count).sum();
            let parts = listed(of_it.map(|((_, refusal), count)| format!("{refusal}: {count}")));
            println!("  {:<8}{all:>9}   {parts}", format!("{operation:?}"));
        }
        let refusals = summed(&self.operations, |(_, refusal)| *refusal);
        let refusals = refusals.iter().filter(|(refusal, _)| **refusal != NOT_REFUSED);
        println!(
            "refusals: {}",
            listed(refusals.map(|(refusal, count)| format!("{refusal}: {count}")))
        );
        let words = summed(&self.answers, |(_, _, status, _)| *status);
        println!(
            "status words: {}",
            listed(words.iter().map(|(word, count)| format!("{word:04x}: {count}")))
        );
        let kinds = summed(&self.kinds, |(_, kind)| *kind);
        println!("kinds: {}", listed(shown(&kinds)));
        println!("comparisons: {}", listed(shown(&self.comparisons)));
        println!("calls that a sound card got, by its situation:");
        for (operation, _) in REFUSALS {
            print_part(&self.situations, operation);
        }
        println!("how the card stood before an answer, and of these how after it:");
        for (before, _) in PASSAGES {
            print_part(&self.passages, before);
        }
        println!("buffers beside the least room:");
        for (operation, _) in ROOMS {
            print_part(&self.rooms, operation);
        }
        println!("responses by what Lr counts, and of them per refusal:");
        for (lr, _) in RESPONSES {
            print_part(&self.responses, lr);
        }
        println!("supplies that were read, by kind:");
        for kind in 1..=MOST_KIND {
            print_part(&self.supplies, kind);
        }
        println!("forms of commands, by the card's situation:");
        for situation in EVERY_SITUATION {
            print_part(&self.forms, situation);
        }
        println!("tap reads by the record that was lent, and of them per refusal and place:");
        for recorded in EVERY_RECORDED {
            print_part(&self.taps, recorded);
        }
        println!("slots: {}", listed(shown(&self.slots)));
        self.print_phrases();
        self.print_faults();
        println!("EXPORT past its data, by P1, P2 and the place of the path:");
        for exported in every_exported() {
            let of_it = self.exports.iter().filter(|((e, _), _)| *e == exported);
            let parts = listed(of_it.map(|((_, status), count)| format!("{status:04x}: {count}")));
            let (p1, p2, place) = exported;
            println!("  {p1:02x} {p2:02x} {:<9}{parts}", format!("{place:?}"));
        }
    }

    /// What GENERATE MNEMONIC and ENTROPY said, by the count of words.
    fn print_phrases(&self) {
        println!("word numbers by their count, and of them per refusal:");
        for operation in [Operation::Answer, Operation::Entropy] {
            for count in EVERY_COUNT {
                let of_it = self.phrases.iter().filter(|((o, c, _), _)| (*o, *c) == (operation, count));
                let parts = listed(of_it.map(|((.., refusal), times)| format!("{refusal}: {times}")));
                println!("  {:<8}{count:>3}   {parts}", format!("{operation:?}"));
            }
        }
    }

    /// What LOAD and WALK found in templates.
    fn print_faults(&self) {
        println!("LOAD past its PIN, by P1, the fault of its data, and status word:");
        for (p1, fault, status) in every_loaded() {
            let count = self.loads.get(&(p1, fault, status)).unwrap_or(&0);
            println!(
                "  {p1:02x} {:<9}{status:04x}: {count}",
                fault.map_or("none".to_string(), |fault| fault.to_string())
            );
        }
        println!("faults that WALK found, by how far they are: {}", listed(shown(&self.walks)));
    }

    /// The answers of each command.
    pub fn print_commands(&self) {
        println!("answers per command and status word (s: sealed):");
        for name in every_name() {
            let of_it = self.answers.iter().filter(|((n, ..), _)| *n == name);
            let of_it: BTreeMap<Row, usize> = of_it.map(|(row, count)| (*row, *count)).collect();
            let words = summed(&of_it, |(_, _, status, sealed)| (*status, *sealed));
            let parts = words
                .iter()
                .map(|((status, sealed), count)| format!("{status:04x}{}: {count}", if *sealed { "s" } else { "" }));
            let name = name.map_or("unknown".to_string(), |name| format!("{name:?}"));
            println!("  {name:<15} {}", listed(parts));
        }
        let rows = every_row();
        let least = rows.iter().filter_map(|row| self.answers.get(row)).min();
        println!(
            "{} rows of command, situation and status word, each at least {} times",
            rows.len(),
            least.unwrap_or(&0)
        );
        let rows = every_verified_row();
        let least = rows.iter().filter_map(|row| self.verified.get(row)).min();
        println!(
            "{} rows of command and status word with the PIN verified, each at least {} times",
            rows.len(),
            least.unwrap_or(&0)
        );
    }
}

/// Every answer that the rules let occur.
pub fn every_row() -> Vec<Row> {
    let mut rows = Vec::new();
    for name in every_name() {
        for situation in EVERY_SITUATION {
            let row = |sealed| move |&status: &u16| (name, situation, status, sealed);
            rows.extend(plain_words(situation, name).iter().map(row(false)));
            rows.extend(sealed_words(situation, name).iter().map(row(true)));
        }
    }
    rows
}

/// The wanted keys that were not counted.
pub fn lacking<K: Ord + Debug>(what: &str, counts: &BTreeMap<K, usize>, wanted: impl IntoIterator<Item = K>) -> Vec<String> {
    let lacks = wanted.into_iter().filter(|key| !counts.contains_key(key));
    lacks.map(|key| format!("{what} {key:x?}")).collect()
}

/// The keys that were counted and cannot be.
fn beyond<K: Debug>(what: &str, counts: &BTreeMap<K, usize>, can_be: impl Fn(&K) -> bool) -> Vec<String> {
    let keys = counts.keys().filter(|key| !can_be(key));
    keys.map(|key| format!("{what} {key:x?}")).collect()
}

fn summed<K, S: Ord>(counts: &BTreeMap<K, usize>, by: impl Fn(&K) -> S) -> BTreeMap<S, usize> {
    let mut sums = BTreeMap::new();
    for (key, count) in counts {
        *sums.entry(by(key)).or_default() += count;
    }
    sums
}

fn shown<K: Debug>(counts: &BTreeMap<K, usize>) -> impl Iterator<Item = String> + '_ {
    counts.iter().map(|(key, count)| format!("{key:?}: {count}"))
}

/// The counts under one first part of the key, if there are any.
fn print_part<A: PartialEq + Debug, B: Debug>(counts: &BTreeMap<(A, B), usize>, part: A) {
    let of_it = counts.iter().filter(|((a, _), _)| *a == part);
    let parts = listed(of_it.map(|((_, b), count)| format!("{b:?}: {count}")));
    if !parts.is_empty() {
        println!("  {:<15}{parts}", format!("{part:?}"));
    }
}

fn listed(parts: impl Iterator<Item = String>) -> String {
    parts.collect::<Vec<_>>().join(", ")
}
