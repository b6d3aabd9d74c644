//! What operations report to C: the table of `docs/LAYOUT.md`, held against structs with the fields of `include/treadlewisp.h`. The header and this
//! crate assert the same offsets when they are compiled. Offsets and sizes are in bytes.

use std::fs;
use std::mem::{offset_of, size_of};

/// What an operation reports, as the header has it.
#[repr(C)]
struct Answered {
    refusal: u8,
    count: usize,
    fault_offset: usize,
}
#[repr(C)]
struct Walked {
    refusal: u8,
    count: usize,
    fault_offset: usize,
}
#[repr(C)]
struct Told {
    refusal: u8,
    count: usize,
}
#[repr(C)]
struct Asked {
    refusal: u8,
    kind: u8,
    count: usize,
}
#[repr(C)]
struct Tapped {
    refusal: u8,
    source: u8,
    offset: usize,
    length: usize,
}

/// The cells of a report's row: each field with its offset and its size, and the size of the whole with its padding.
macro_rules! report {
    ($name:ident: $($field:ident $bytes:literal),*) => {{
        let fields = [$(format!("`{}` {}, {}", stringify!($field), offset_of!($name, $field), $bytes)),*];
        let (whole, used): (usize, usize) = (size_of::<$name>(), [$($bytes),*].iter().sum());
        format!("| {} | {whole}, of which {} are padding |", fields.join("; "), whole - used)
    }};
}

#[test]
fn the_reports_of_the_layout() {
    let page = format!("{}/../docs/LAYOUT.md", env!("CARGO_MANIFEST_DIR"));
    let layout = fs::read_to_string(&page).unwrap_or_else(|why| panic!("{page}: {why}"));
    let rows = [
        ("(ANSWER)", report!(Answered: refusal 1, count 8, fault_offset 8)),
        ("(WALK)", report!(Walked: refusal 1, count 8, fault_offset 8)),
        ("(SEAL, UNSEAL, WRITE, ENTROPY)", report!(Told: refusal 1, count 8)),
        ("(ASK)", report!(Asked: refusal 1, kind 1, count 8)),
        ("(the tap read)", report!(Tapped: refusal 1, source 1, offset 8, length 8)),
    ];
    for (operations, cells) in rows {
        let row = format!("{operations} {cells}");
        assert!(layout.lines().any(|line| line.ends_with(&row)), "{row}");
    }
    assert_eq!((size_of::<Answered>(), size_of::<Walked>()), (24, 24));
}
