//! How a work is timed: each implementation makes the same calls from the same state, by turns, round after round, and every result of the
//! baselines is held to the library's. Times are in seconds where nothing else is said; lengths are in bytes.

use crate::sides::{Side, State};
use crate::works::{Call, Work};
use outside::ffi::treadlewisp::Told;
use std::hint::black_box;
use std::time::Instant;

/// The library, the byte-wise baseline, the baseline by word tables: in this order everywhere.
pub const SIDES: usize = 3;
pub const LIBRARY: usize = 0;
pub const BYTE_WISE: usize = 1;
pub const TABLES: usize = 2;
pub const NAMES: [&str; SIDES] = ["library", "byte-wise", "tables"];

/// The time of each round, for each implementation.
pub struct Times {
    /// Calls in a round.
    calls: usize,
    seconds: [Vec<f64>; SIDES],
}

pub fn median(mut numbers: Vec<f64>) -> f64 {
    numbers.sort_by(f64::total_cmp);
    let middle = numbers.len() / 2;
    if numbers.len() % 2 == 0 {
        (numbers[middle - 1] + numbers[middle]) / 2.0
    } else {
        numbers[middle]
    }
}

impl Times {
    pub fn new(calls: usize) -> Times {
        Times {
            calls,
            seconds: Default::default(),
        }
    }

    pub fn push(&mut self, seconds: [f64; SIDES]) {
        for (all, one) in self.seconds.iter_mut().zip(seconds) {
            all.push(one);
        }
    }

    /// Nanoseconds a call in the best round.
    pub fn best(&self, side: usize) -> f64 {
        let least = self.seconds[side].iter().copied().fold(f64::MAX, f64::min);
        least * 1e9 / self.calls as f64
    }

    /// Seconds of all rounds together.
    pub fn total(&self, side: usize) -> f64 {
        self.seconds[side].iter().sum()
    }

    /// The library's speed over the baseline's: the median of the rounds' ratios, which a busy machine moves less than the times.
    pub fn ratio(&self, baseline: usize) -> f64 {
        let rounds = self.seconds[LIBRARY].iter().zip(&self.seconds[baseline]);
        median(rounds.map(|(library, other)| other / library).collect())
    }

    /// The same ratio from the best round of each.
    pub fn best_ratio(&self, baseline: usize) -> f64 {
        self.best(baseline) / self.best(LIBRARY)
    }
}

/// Who begins changes from round to round.
pub fn turns(round: usize) -> [usize; SIDES] {
    [0, 1, 2].map(|turn| (round + turn) % SIDES)
}

#[inline(never)]
fn moved<const BYTES: usize>(timed: &mut dyn FnMut() -> f64) -> f64 {
    let gap = [0u8; BYTES];
    black_box(&gap);
    let seconds = timed();
    black_box(&gap);
    seconds
}

/// Runs a round with the stack at one of four places, 16 bytes apart. Where it lies against the cache's lines moves the times by up to a tenth,
/// and it is another place in each run of the program; so every run takes all four in turn.
pub fn on_moved_stack(round: usize, timed: &mut dyn FnMut() -> f64) -> f64 {
    match round % 4 {
        0 => moved::<16>(timed),
        1 => moved::<32>(timed),
        2 => moved::<48>(timed),
        _ => moved::<64>(timed),
    }
}

/// Ends the run: what was measured would mean nothing.
pub fn differ(work: &str, side: usize, what: &str) -> ! {
    println!("DIFFERENCE in {work}, {}: {what}", NAMES[side]);
    std::process::exit(1);
}

/// What one round of calls leaves: every number told, every buffer, the last state.
#[derive(PartialEq)]
struct Outcome {
    told: Vec<Told>,
    buffers: Vec<u8>,
    state: State,
}

impl Outcome {
    fn new(calls: &[Call], state: &State) -> Outcome {
        Outcome {
            told: Vec::with_capacity(calls.len()),
            buffers: vec![0; calls.iter().map(|call| call.room_bytes()).sum()],
            state: state.clone(),
        }
    }

    fn is_done(&self, calls: &[Call]) -> bool {
        let room_bytes = self.buffers.len() / calls.len();
        let mut numbered = calls.iter().zip(&self.told).enumerate();
        numbered.all(|(i, (call, told))| call.is_done(*told, &self.buffers[i * room_bytes..][..room_bytes]))
    }
}

/// One round of one side: each call has a buffer of its own, and all of them are cleared here before the clock starts, on every side alike.
/// Between start and end each call expands the keys that it needs, on every side: the library has none but the bytes of the session, and the
/// model's `encrypt` and `mac` (outside/model/message.rs) take the keys, and their ciphers expand them in `cbc_encrypt` and `cbc_mac`. The
/// baselines' tables are made once, by the calls that `measure` makes before it times any.
fn round(side: &mut dyn Side, calls: &[Call], outcome: &mut Outcome) -> f64 {
    outcome.buffers.fill(0);
    outcome.told.clear();
    let room_bytes = outcome.buffers.len() / calls.len();
    let mut left = &mut outcome.buffers[..];
    let start = Instant::now();
    for call in calls {
        let (buffer, rest) = left.split_at_mut(room_bytes);
        outcome.told.push(black_box(call).make(side, black_box(buffer)));
        left = rest;
    }
    let seconds = start.elapsed().as_secs_f64();
    outcome.state = side.state();
    seconds
}

/// The calls did what they are meant to, and each baseline's outcome is the library's.
fn hold(work: &Work, calls: &[Call], outcomes: &[Outcome; SIDES]) {
    if !outcomes[LIBRARY].is_done(calls) {
        differ(&work.name, LIBRARY, "a call did not do what is measured");
    }
    for side in [BYTE_WISE, TABLES] {
        if outcomes[side] != outcomes[LIBRARY] {
            differ(&work.name, side, "another result than the library's");
        }
    }
}

/// Makes the calls of a work on every side, by turns, so many in each round; the state goes on from round to round. Before that the first
/// round is made once call by call, so that the state after each is compared too.
pub fn measure(sides: &mut [&mut dyn Side; SIDES], state: &State, work: &Work, round_calls: usize) -> Times {
    let mut outcomes = NAMES.map(|_| Outcome::new(&work.calls[..1], state));
    sides.iter_mut().for_each(|side| side.begin(state));
    for call in work.calls[..round_calls].chunks(1) {
        for side in 0..SIDES {
            round(sides[side], call, &mut outcomes[side]);
        }
        hold(work, call, &outcomes);
    }
    let mut outcomes = NAMES.map(|_| Outcome::new(&work.calls[..round_calls], state));
    let mut times = Times::new(round_calls);
    sides.iter_mut().for_each(|side| side.begin(state));
    for (number, calls) in work.calls.chunks_exact(round_calls).enumerate() {
        let mut seconds = [0.0; SIDES];
        for side in turns(number) {
            seconds[side] = on_moved_stack(number, &mut || round(sides[side], calls, &mut outcomes[side]));
        }
        hold(work, calls, &outcomes);
        times.push(seconds);
    }
    times
}
