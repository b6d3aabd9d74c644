//! The rules (docs/RULES.md) once more, plainly, in Rust: the card, its commands, the sealed message, templates and the stored record. It was
//! written from the build definition and the requests alone, apart from the definitions of crates/, and shares no code with the engine.
//! Lengths and counts are in bytes; a refusal of 0 means none.

pub mod card;
pub mod commands;
pub mod engine;
pub mod layout;
pub mod message;
pub mod pairing;
pub mod phrase;
pub mod record;
pub mod sealed_commands;
pub mod status;
pub mod template;

/// The cipher beneath: the module of this name beside the model, in lib.rs or in by_word_tables.rs.
use super::cipher;
/// The hash beneath is the same for both.
use crate::hashes::plain as hash;
