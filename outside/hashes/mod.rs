//! SHA-256 in Rust, as the standard writes it. Lengths are in bytes.

pub mod plain;
