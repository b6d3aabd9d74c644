//! The proved libraries as Rust calls them over their C functions, one file for each library. build.rs says which programs link which.

pub mod aes_c;
pub mod sha_c;
pub mod treadlewisp;
