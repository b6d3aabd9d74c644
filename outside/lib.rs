//! What the programs of this package share: the plain model of the rules, two ciphers, a hash, the proved libraries' functions, and a seeded
//! generator. Lengths are in bytes.

pub mod ciphers;
pub mod ffi;
pub mod hashes;
pub mod model;
pub mod random;

#[path = "model/by_word_tables.rs"]
pub mod by_word_tables;

/// The cipher beneath the model.
use ciphers::plain as cipher;
