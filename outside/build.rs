//! Tells the linker which proved libraries each program takes, from the repository's `target/staticlib`; tools/archive makes them.

use std::env;
use std::path::Path;

const PROGRAMS: [(&str, &[&str]); 6] = [
    ("bench", &["treadlewisp", "aes_c", "aes_word_c", "sha_c"]),
    ("cards", &["treadlewisp"]),
    ("compare", &["aes_c", "aes_word_c"]),
    ("hashes", &["sha_c"]),
    ("phrases", &["treadlewisp"]),
    ("player", &["treadlewisp"]),
];

fn main() {
    let package = env::var_os("CARGO_MANIFEST_DIR").unwrap_or_default();
    let folder = Path::new(&package).join("../target/staticlib");
    println!("cargo:rerun-if-changed=build.rs");
    println!("cargo:rerun-if-changed={}", folder.display());
    for (program, libraries) in PROGRAMS {
        for library in libraries {
            let archive = folder.join(format!("lib{library}.a"));
            println!("cargo:rustc-link-arg-bin={program}={}", archive.display());
        }
    }
}
