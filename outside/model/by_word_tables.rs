//! The model a second time, over the cipher by word tables: the same files beside another module `cipher`. It is a baseline for the benchmark.

use crate::ciphers::word_tables as cipher;

#[path = "mod.rs"]
pub mod model;
