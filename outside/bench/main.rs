//! How fast the proved library is beside two baselines in Rust: the plain model of the rules over the byte-wise cipher, and the same model
//! over AES by word tables. The same input in one run, results compared; the first difference ends it with a status that is not 0. It prints
//! the tables of docs/PERFORMANCE.md, and at the end whether SEAL is as fast as is asked for, which the status does not depend on. Lengths are
//! in bytes.

mod by_word_tables;
mod ciphers_alone;
mod hashes_alone;
mod in_place;
mod model_side;
mod rounds;
mod sides;
mod works;

use ciphers_alone::{Messages, Operation};
use outside::ciphers::plain::BLOCK_BYTES;
use outside::model::{self, message::MAX_DATA_BYTES};
use outside::random::Random;
use rounds::{measure, Times, BYTE_WISE, LIBRARY, NAMES, SIDES, TABLES};
use sides::{Side, State};
use works::Work;

const SEED: u64 = 0x7265_6164_6c65_7769;
/// Calls of SEAL with the most data, and of the others.
const SEAL_CALLS: usize = 100_000;
const CALLS: usize = 20_000;
/// Calls in a round: few, so that a round is short and most are not interrupted.
const ROUND_CALLS: usize = 100;

/// Lengths in bytes at which the growth is shown, beside the greatest: SEAL's data, and what is inside of the response that UNSEAL opens.
const SEAL_BYTES: [usize; 5] = [0, 16, 32, 64, 128];
const UNSEAL_BYTES: [usize; 6] = [2, 16, 32, 64, 128, MAX_DATA_BYTES];
/// Messages of the ciphers alone.
const MESSAGES: [Messages; 3] = [
    Messages {
        message_bytes: 16,
        messages: 100,
        rounds: 400,
    },
    Messages {
        message_bytes: 240,
        messages: 100,
        rounds: 400,
    },
    Messages {
        message_bytes: 1 << 16,
        messages: 1,
        rounds: 200,
    },
];
/// WALK's input.
const WALK_BYTES: [usize; 5] = [16, 64, 256, 1024, 4096];

/// The speed to the tables that is asked of SEAL with the most data, at most twice their time; and the project's own bar.
const ASKED_SPEED: f64 = 0.5;
const BAR_SPEED: f64 = 1.0;

/// A work that was measured.
struct Measured {
    work: Work,
    times: Times,
}

impl Measured {
    /// Prints the row of the work, in nanoseconds a call.
    fn print(&self) {
        print_row(&self.work.name, &self.times, |ns| format!("{ns:.0}"));
    }
}

struct Bench {
    random: Random,
    state: State,
}

impl Bench {
    fn row(&self, work: Work) -> Measured {
        let mut library = sides::Library::new(&self.state);
        let mut byte_wise = model_side::Model::new(&self.state);
        let mut tables = by_word_tables::model_side::Model::new(&self.state);
        let mut sides: [&mut dyn Side; SIDES] = [&mut library, &mut byte_wise, &mut tables];
        let times = measure(&mut sides, &self.state, &work, ROUND_CALLS);
        let measured = Measured { work, times };
        measured.print();
        measured
    }

    /// The main table; answers SEAL with the most data, for the second table and the last line.
    fn operations(&mut self) -> Measured {
        print_head("call", "ns");
        let seal = works::seal(&mut self.random, MAX_DATA_BYTES, SEAL_CALLS);
        let sealed = self.row(seal);
        let get_status = self.row(works::get_status(CALLS));
        self.row(works::answers(&self.state, &get_status.work, "GET STATUS, ANSWER alone"));
        let verify = self.row(works::verify(&self.state, CALLS));
        self.row(works::answers(&self.state, &verify.work, "VERIFY, ANSWER alone"));
        let read = works::read(&mut self.random, CALLS);
        self.row(read);
        self.row(works::write(CALLS));
        let seconds = each_side(|side| format!("{:.2} s", sealed.times.total(side)));
        println!("\nAll {SEAL_CALLS} commands of the first row together: {seconds}.");
        sealed
    }

    /// How the cost grows with the length.
    fn growth(&mut self, sealed_most: &Measured) {
        print_head("call", "ns");
        let sealed = SEAL_BYTES.map(|bytes| {
            let work = works::seal(&mut self.random, bytes, CALLS);
            self.row(work)
        });
        sealed_most.print();
        let unsealed = UNSEAL_BYTES.map(|bytes| {
            let work = works::unseal(&mut self.random, &self.state, bytes, CALLS);
            self.row(work)
        });
        let walked = WALK_BYTES.map(|bytes| self.row(works::walk(bytes, CALLS)));
        println!("\nEach further 16 bytes cost, between the least and the greatest length:\n");
        print_growth("SEAL", &sealed[0], sealed_most);
        print_growth("UNSEAL", &unsealed[0], &unsealed[unsealed.len() - 1]);
        print_growth("WALK", &walked[0], &walked[walked.len() - 1]);
    }
}

impl Bench {
    /// SEAL beside word tables that seal in place. What the second and third side are is in the head of this table.
    fn sealed_in_place(&mut self) {
        println!("\n| call | library, ns | tables, ns | tables in place, ns | speed to tables | speed to tables in place |");
        println!("|---|---|---|---|---|---|");
        for bytes in SEAL_BYTES.into_iter().chain([MAX_DATA_BYTES]) {
            let work = works::seal(&mut self.random, bytes, CALLS);
            let mut library = sides::Library::new(&self.state);
            let mut tables = by_word_tables::model_side::Model::new(&self.state);
            let mut in_place = in_place::InPlace::new(&self.state);
            let times = measure(&mut [&mut library, &mut tables, &mut in_place], &self.state, &work, ROUND_CALLS);
            print_row(&work.name, &times, |ns| format!("{ns:.0}"));
        }
    }
}

/// A figure for each implementation, with its name.
fn each_side(figure: impl Fn(usize) -> String) -> String {
    let figures = (0..SIDES).map(|side| format!("{} {}", NAMES[side], figure(side)));
    figures.collect::<Vec<_>>().join(", ")
}

fn print_head(what: &str, unit: &str) {
    let figures = NAMES.map(|name| format!("{name}, {unit}")).join(" | ");
    println!("\n| {what} | {figures} | speed to byte-wise | speed to tables |");
    println!("|---|---|---|---|---|---|");
}

/// The best round's figure of each, and the ratios: the median, and in brackets that of the best rounds.
fn print_row(name: &str, times: &Times, figure: impl Fn(f64) -> String) {
    let figures = [0, 1, 2].map(|side| figure(times.best(side))).join(" | ");
    let ratios = [BYTE_WISE, TABLES].map(|side| format!("{:.2} ({:.2})", times.ratio(side), times.best_ratio(side)));
    println!("| {name} | {figures} | {} |", ratios.join(" | "));
}

/// Whole blocks of 16 bytes count: padding fills the last one.
fn print_growth(operation: &str, least: &Measured, most: &Measured) {
    let steps = most.work.bytes / BLOCK_BYTES - least.work.bytes / BLOCK_BYTES;
    let cost = |side| (most.times.best(side) - least.times.best(side)) / steps as f64;
    println!("- {operation}: {}", each_side(|side| format!("{:.1} ns", cost(side))));
}

/// The ciphers alone, in millions of bytes a second, each message with its own key expansion.
fn ciphers_alone(random: &mut Random) {
    print_head("AES-256 in CBC", "MB/s");
    let mut least = f64::MAX;
    for work in &MESSAGES {
        let encrypt = cipher_row(random, work, "encrypt", Operation::Encrypt);
        cipher_row(random, work, "decrypt", Operation::Decrypt);
        cipher_row(random, work, "MAC", Operation::Mac);
        least = least.min(encrypt.ratio(BYTE_WISE)).min(encrypt.best_ratio(BYTE_WISE));
    }
    println!("\nThe least ratio of enciphering to the byte-wise cipher: {least:.2}.");
    print_head("AES-256 in CBC, the library by its engine from tables", "MB/s");
    for work in &MESSAGES {
        cipher_row(random, work, "encrypt and MAC", Operation::EncryptAndMac);
        cipher_row(random, work, "MAC", Operation::MacByTables);
    }
}

fn cipher_row(random: &mut Random, work: &Messages, name: &str, operation: Operation) -> Times {
    let times = ciphers_alone::measure(random, work, operation);
    let name = format!("{name}, messages of {} bytes", work.message_bytes);
    print_row(&name, &times, |ns| format!("{:.1}", work.message_bytes as f64 * 1e3 / ns));
    times
}

/// What is asked of sealing on the loading line: the time of all commands with the most data, beside that of the tables.
fn print_asked(sealed: &Times) {
    let (library, tables) = (sealed.total(LIBRARY), sealed.total(TABLES));
    let (speed, median) = (tables / library, sealed.ratio(TABLES));
    let met = |figure: f64, least: f64| if figure >= least { "met" } else { "not met" };
    let asked = format!("asked for: at least {ASKED_SPEED:.2}, {}", met(speed, ASKED_SPEED));
    let bar = format!("the project's bar: at least {BAR_SPEED:.2}, {}", met(median, BAR_SPEED));
    let times = format!("library {library:.2} s, tables {tables:.2} s");
    println!(
        "\nSEAL of {SEAL_CALLS} commands of {MAX_DATA_BYTES} bytes: {times}; speed to tables {speed:.2} ({asked}), in the median round {median:.2} ({bar})."
    );
}

fn main() {
    let mut random = Random::new(SEED);
    let state = works::start(&mut random);
    println!("The library, the model over the byte-wise cipher, and the model over AES by word tables; seed {SEED:#x}.");
    ciphers_alone::check(&mut random);
    println!("ns: nanoseconds a call, in the best round. Speed to a baseline: its time over the library's, the median of the rounds,");
    println!("and in brackets that of the best rounds; over 1 the library is faster, under 1 slower.");
    let mut bench = Bench { random, state };
    let sealed = bench.operations();
    bench.growth(&sealed);
    bench.sealed_in_place();
    ciphers_alone(&mut bench.random);
    hashes_alone::table(&mut bench.random);
    print_asked(&sealed.times);
    println!("\nEvery result was the same on all of them.");
}
