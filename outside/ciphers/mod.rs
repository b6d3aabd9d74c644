//! AES-256 twice in Rust: byte by byte, as the standards write it, and by word tables. Lengths are in bytes.

pub mod plain;
pub mod word_tables;
