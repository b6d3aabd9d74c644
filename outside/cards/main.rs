//! The proved library beside the plain model of the rules, over the C boundary: the rows to settle, sweeps, every way to keep or lose a
//! verified PIN, every way to export a key, tap records, pairing slots, what PAIR and LOAD hash, where a template's fault lies, word numbers
//! of recovery phrases and back, whole lives of cards, and the two runs of demand 3. The first difference ends the run with a status that is
//! not 0, and so does a row of the tables that never occurred, or an answer that they do not have.

mod both;
mod directed;
mod entropies;
mod exports;
mod fault_places;
mod faults;
mod guarded;
mod hashing;
mod host;
mod joining;
mod keypairs;
mod lives;
mod may_occur;
mod pairs;
mod paths;
mod phrases;
mod records;
mod requests;
mod second_client;
mod sending;
mod settled_rows;
mod slot_fields;
mod slots;
mod standing;
mod states;
mod sweeps;
mod tally;
mod tap_fields;
mod taps;
mod templates;
mod terminal;
mod word_numbers;

use both::Both;

const SEED: u64 = 0x7265_6164_6c65_7769;
const CALLS: usize = 500_000;
/// Of the calls, those that the two runs make.
const PAIRS_PERCENT: usize = 25;

struct Options {
    seed: u64,
    calls: usize,
    /// One life or one pair alone, by its number.
    life: Option<u64>,
    pair: Option<u64>,
}

fn usage() -> ! {
    eprintln!("options: --calls N (default {CALLS}), --seed N, --life N or --pair N for that one alone");
    std::process::exit(2);
}

fn options() -> Options {
    let mut options = Options {
        seed: SEED,
        calls: CALLS,
        life: None,
        pair: None,
    };
    let mut arguments = std::env::args().skip(1);
    while let Some(name) = arguments.next() {
        let Some(number) = arguments.next().and_then(|text| text.parse::<u64>().ok()) else {
            usage()
        };
        match name.as_str() {
            "--calls" => options.calls = number as usize,
            "--seed" => options.seed = number,
            "--life" => options.life = Some(number),
            "--pair" => options.pair = Some(number),
            _ => usage(),
        }
    }
    options
}

fn main() {
    let options = options();
    let mut both = Both::new(options.seed);
    let mut done = pairs::Done::default();
    if let Some(number) = options.life {
        lives::live(&mut both, options.seed, number);
    }
    if let Some(number) = options.pair {
        pairs::run(&mut both, &mut done, options.seed, number);
    }
    if options.life.is_some() || options.pair.is_some() {
        println!("{} calls, no difference", both.tally.calls());
        return;
    }
    settled_rows::run(&mut both, options.seed);
    directed::run(&mut both, options.seed);
    sweeps::run(&mut both, options.seed);
    joining::run(&mut both, options.seed);
    second_client::run(&mut both, options.seed);
    exports::run(&mut both, options.seed);
    taps::run(&mut both, options.seed);
    tap_fields::run(&mut both, options.seed);
    slots::run(&mut both, options.seed);
    slot_fields::run(&mut both, options.seed);
    hashing::run(&mut both, options.seed);
    fault_places::run(&mut both, options.seed);
    phrases::run(&mut both, options.seed);
    entropies::run(&mut both, options.seed);
    let mut lives = 0;
    while both.tally.calls() < options.calls / 100 * (100 - PAIRS_PERCENT) {
        lives::live(&mut both, options.seed, lives);
        lives += 1;
    }
    pairs::directed(&mut both, &mut done, options.seed);
    let mut pairs = 0;
    while both.tally.calls() < options.calls {
        pairs::run(&mut both, &mut done, options.seed, pairs);
        pairs += 1;
    }
    report(&options, &both, &done, lives);
}

fn report(options: &Options, both: &Both, done: &pairs::Done, lives: u64) {
    println!("the library and the model of the rules, seed {:#x}:", options.seed);
    println!("the rows to settle hold");
    println!("{} calls in {lives} lives of cards and {} pairs", both.tally.calls(), done.pairs);
    both.tally.print();
    both.tally.print_commands();
    done.print();
    let missing = [both.tally.missing(), done.missing()].concat();
    for what in &missing {
        println!("NEVER OCCURRED: {what}");
    }
    let too_many = both.tally.too_many();
    for what in &too_many {
        println!("CANNOT OCCUR, by the tables: {what}");
    }
    if !missing.is_empty() || !too_many.is_empty() {
        std::process::exit(1);
    }
    println!("no difference; no input was changed, and no byte around what the library was lent");
}
