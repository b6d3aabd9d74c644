//! Finds `libtreadlewisp.a` and links it, and with the feature `sha256` also `libsha_c.a`: in the folder that TREADLEWISP_LIB_DIR names (a
//! relative one counts from this package), or else in the repository's `target/staticlib`, for AArch64 and RISC-V in the folder of the target
//! below it.

use std::env;
use std::path::{Path, PathBuf};
use std::process::exit;

/// A library, and how the repository's tools call it.
const ENGINE: &str = "treadlewisp";
const HASH: &str = "sha_c";
const HASH_FEATURE: &str = "CARGO_FEATURE_SHA256";
const FOLDER_VARIABLE: &str = "TREADLEWISP_LIB_DIR";
const DEFAULT_FOLDER: &str = "../target/staticlib";

fn main() {
    println!("cargo:rerun-if-changed=build.rs");
    println!("cargo:rerun-if-env-changed={FOLDER_VARIABLE}");
    let target = target();
    let folder = library_folder(target);
    println!("cargo:rustc-link-search=native={}", folder.display());
    link(&folder, ENGINE, target);
    if env::var_os(HASH_FEATURE).is_some() {
        link(&folder, HASH, target);
    }
}

/// `target` is the folder of another processor than x86-64, as tools/archive names it, or nothing.
fn link(folder: &Path, name: &str, target: &str) {
    let file = folder.join(format!("lib{name}.a"));
    if !file.is_file() {
        let words = if target.is_empty() {
            String::new()
        } else {
            format!("--target {target} ")
        };
        fail(&format!(
            "{} is missing. Make it with tools/archive {words}{name} in the repository, or name the folder that holds it in {FOLDER_VARIABLE}.",
            file.display()
        ));
    }
    println!("cargo:rerun-if-changed={}", file.display());
    println!("cargo:rustc-link-lib=static={name}");
}

fn library_folder(target: &str) -> PathBuf {
    let package = env::var_os("CARGO_MANIFEST_DIR").unwrap_or_default();
    let named = env::var_os(FOLDER_VARIABLE).filter(|named| !named.is_empty());
    let default = Path::new(DEFAULT_FOLDER).join(target);
    Path::new(&package).join(named.map_or(default, PathBuf::from))
}

/// The folder of the processor below the libraries' own, which is that of x86-64. The libraries are for Linux, and for three processors of 64 bits.
fn target() -> &'static str {
    let machine = env::var("CARGO_CFG_TARGET_ARCH").unwrap_or_default();
    let system = env::var("CARGO_CFG_TARGET_OS").unwrap_or_default();
    let order = env::var("CARGO_CFG_TARGET_ENDIAN").unwrap_or_default();
    match (machine.as_str(), system.as_str(), order.as_str()) {
        ("x86_64", "linux", "little") => "",
        ("aarch64", "linux", "little") => "aarch64",
        ("riscv64", "linux", "little") => "riscv64",
        _ => fail(&format!(
            "the library is for x86_64, aarch64 and riscv64 linux, low byte first, and this build is for {machine} {system}."
        )),
    }
}

fn fail(message: &str) -> ! {
    eprintln!("treadlewisp: {message}");
    exit(1);
}
