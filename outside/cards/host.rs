//! The host beside the card: it gives the supply that a command asks for, or a wrong one, and the buffers. Lengths are in bytes.

use crate::may_occur::Supplied;
use outside::ciphers::plain::Key;
use outside::model::card::{Card, NO, YES};
use outside::model::commands::{supply_of_kind, Supply, FOR_INIT, FOR_SIGN};
use outside::model::engine::{ask, ASK_ROOM_BYTES};
use outside::random::choice::{array, byte, chance, pick, some_bytes};
use outside::random::Random;

/// How a supply is to be.
#[derive(Clone, Copy, PartialEq, Eq)]
pub enum Way {
    Right,
    /// With flag 00, where there is one.
    Refusing,
    /// Of a wrong length or with a wrong flag, mostly.
    Wrong,
}

/// The supply for this command on this card; a random one where none is read. INIT's AES key is the one that the terminal took.
pub fn supply_for(random: &mut Random, card: &Card, command: &[u8], init_key: &Key, way: Way) -> Vec<u8> {
    let asked = ask(card, command, &mut [0; ASK_ROOM_BYTES]);
    if asked.kind == 0 {
        return some_bytes(random, 0, 140);
    }
    let wanted = supply_of_kind(asked.kind, command[2]);
    match way {
        Way::Refusing if wanted.has_flag => supplied_as(random, &wanted, init_key, Supplied::No),
        Way::Right | Way::Refusing => supplied_as(random, &wanted, init_key, Supplied::Right),
        Way::Wrong => {
            let mut supply = supplied_as(random, &wanted, init_key, Supplied::Right);
            spoil(random, &mut supply, wanted.has_flag);
            supply
        }
    }
}

/// A supply of this kind, which has one length, that is right, or wrong in this one way.
pub fn supply_of(random: &mut Random, kind: u8, init_key: &Key, how: Supplied) -> Vec<u8> {
    supplied_as(random, &supply_of_kind(kind, 0x00), init_key, how)
}

/// This supply, right, or wrong in this one way.
pub fn supplied_as(random: &mut Random, wanted: &Supply, init_key: &Key, how: Supplied) -> Vec<u8> {
    let kind = wanted.kind;
    let mut supply = random.bytes(wanted.bytes);
    if wanted.has_flag {
        supply[0] = YES;
    }
    if kind == FOR_INIT {
        supply[1..].copy_from_slice(init_key);
    }
    if kind == FOR_SIGN {
        supply[65..97].copy_from_slice(&random_number(random));
        supply[97..].copy_from_slice(&random_number(random));
    }
    match how {
        Supplied::Right => {}
        Supplied::No => supply[0] = NO,
        Supplied::BadFlag => supply[0] = 2 + random.below(254) as u8,
        Supplied::Empty => supply.clear(),
        Supplied::LoneNo => supply = vec![NO],
        Supplied::Short => drop(supply.pop()),
        Supplied::Long => supply.push(byte(random)),
    }
    supply
}

fn spoil(random: &mut Random, supply: &mut Vec<u8>, has_flag: bool) {
    match random.below(6) {
        0 | 1 if has_flag => supply[0] = 2 + random.below(254) as u8,
        0 | 1 => supply.push(byte(random)),
        2 if has_flag => *supply = vec![pick(random, &[0, 0, 1, 2])],
        2 => supply.clear(),
        3 => drop(supply.pop()),
        4 => supply.push(0),
        _ => *supply = some_bytes(random, 0, 140),
    }
    if has_flag && supply.len() > 1 && chance(random, 20) {
        supply[0] = 0;
    }
}

/// A number of 32 bytes for a signature: any, with leading zeros, with a high bit after them, zero, or the greatest.
fn random_number(random: &mut Random) -> [u8; 32] {
    let mut number: [u8; 32] = array(random);
    match random.below(6) {
        0 => number = [0; 32],
        1 => number = [0xff; 32],
        2 | 3 => {
            let zeros = random.below(32);
            number[..zeros].fill(0);
            number[zeros] = pick(random, &[0x7f, 0x80, 0xff, 0x01, 0x00]);
        }
        _ => {}
    }
    number
}

/// A buffer with random content that the call can use: mostly of just the least length.
pub fn room(random: &mut Random, least_bytes: usize) -> Vec<u8> {
    let more = if chance(random, 60) { 0 } else { random.below(60) };
    random.bytes(least_bytes + more)
}

/// A buffer that is too short: often by one byte.
pub fn short_room(random: &mut Random, least_bytes: usize) -> Vec<u8> {
    let bytes = match random.below(10) {
        0 => 0,
        1..=5 => least_bytes - 1,
        _ => random.below(least_bytes),
    };
    random.bytes(bytes)
}
