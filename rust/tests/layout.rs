//! The numbers that `docs/LAYOUT.md`, `include/treadlewisp.h` and the proved crates `card`, `record_rules`, `refusals` and `phrase_bits` have, held
//! against this crate's own, which follow from the fields.

use std::collections::{BTreeMap, BTreeSet};
use std::fs;

use treadlewisp::*;

/// The crate's constants of these names.
macro_rules! named {
    ($($name:ident),* $(,)?) => {
        [$((stringify!($name), $name as usize)),*]
    };
}

/// A file of the repository.
fn text(path: &str) -> String {
    let file = format!("{}/../{path}", env!("CARGO_MANIFEST_DIR"));
    fs::read_to_string(&file).unwrap_or_else(|why| panic!("{file}: {why}"))
}

/// A row of the layout's table: where the field begins, which a whole part's row leaves out, its length in bytes, and its name.
type Row = (Option<usize>, usize, String);

/// The rows of a table in the text, those whose second cell is a number.
fn written_rows(text: &str) -> Vec<Row> {
    let cells = |line: &str| -> Vec<String> {
        let bare = |cell: &str| cell.trim().trim_matches(['*', '`']).to_string();
        line.split('|').map(bare).collect()
    };
    let row = |line: &str| -> Option<Row> {
        let cells = cells(line);
        let bytes = cells.get(2)?.parse().ok()?;
        Some((cells[1].parse().ok(), bytes, cells.get(3)?.clone()))
    };
    text.lines().filter_map(row).collect()
}

/// The rows of one field: a slot's flag and key are apart for the first slot, a path's length and room for each path.
fn field_rows(field: &CardField) -> Vec<Row> {
    let row = |at: usize, bytes: usize, name: String| (Some(field.offset + at), bytes, name);
    let path = field.path;
    match field.name {
        "slots" => {
            let first = [row(0, 1, format!("{path}[0].filled")), row(1, KEY_BYTES, format!("{path}[0].key"))];
            let other = |slot: usize| row(slot * SLOT_BYTES, SLOT_BYTES, format!("{path}[{slot}]"));
            first.into_iter().chain((1..SLOTS).map(other)).collect()
        }
        // The tap record is a part of the card by itself.
        "tap" => vec![
            (None, field.bytes, path.to_string()),
            row(0, 1, format!("{path}.len")),
            row(1, TAP_MAX_BYTES, format!("{path}.bytes")),
        ],
        "current" | "pinless" => vec![row(0, 1, format!("{path}.len")), row(1, PATH_MAX_BYTES, format!("{path}.bytes"))],
        _ => vec![row(0, field.bytes, path.to_string())],
    }
}

fn part_of(field: &CardField) -> Option<&'static str> {
    field.path.split_once('.').map(|(part, _)| part)
}

#[test]
fn the_table_of_the_layout() {
    let mut rows: Vec<Row> = Vec::new();
    let mut part = None;
    for field in Card::FIELDS {
        if part_of(field) != part {
            part = part_of(field);
            let of_part = Card::FIELDS.iter().filter(|field| part_of(field) == part);
            let bytes = of_part.map(|field| field.bytes).sum();
            rows.extend(part.map(|part| (None, bytes, part.to_string())));
        }
        rows.extend(field_rows(field));
    }
    assert_eq!(written_rows(&text("docs/LAYOUT.md")), rows);
}

#[test]
fn the_lengths_that_the_layout_names() {
    let layout = text("docs/LAYOUT.md");
    let whole = format!("**{CARD_BYTES} bytes in all.**");
    assert!(layout.contains(&whole), "{whole}");
    let stored = format!("is {RECORD_FRESH_BYTES} to {RECORD_MAX_BYTES} bytes long");
    assert!(layout.contains(&stored), "{stored}");
}

/// The table of a recovery phrase: a name of the header, what it is, and its bytes.
#[test]
fn the_lengths_of_a_recovery_phrase() {
    let layout = text("docs/LAYOUT.md");
    let constants = named![
        ENTROPY_BYTES_PER_CHECKSUM_BIT,
        ENTROPY_MIN_BYTES,
        ENTROPY_MAX_BYTES,
        ENTROPY_ROOM_BYTES,
        WORD_NUMBER_BYTES,
        WORDS_MIN_BYTES,
        WORDS_MAX_BYTES,
    ];
    for (name, bytes) in constants {
        let (front, end) = (format!("| `TW_{name}` | "), format!(" | {bytes} |"));
        let has_row = layout.lines().any(|line| line.starts_with(&front) && line.ends_with(&end));
        assert!(has_row, "{name}: {bytes}");
    }
    assert!(layout.contains(&format!("at most {WORD_NUMBER_MAX} (`TW_WORD_NUMBER_MAX`)")));
}

/// The number that ANSWER tells where it has no fault offset: it is beyond all opened data.
#[test]
fn the_number_for_no_fault() {
    let header = header();
    assert_eq!(value("TW_NO_FAULT", &header), 255);
    assert!(value("TW_NO_FAULT", &header) >= DATA_MAX_BYTES);
}

/// An array in C: the struct that it is in, its name, and how many elements it has.
type Array = (String, String, usize);

/// The arrays of a line such as `struct { uint8_t uid[16], public_key[65]; } identity;`.
fn arrays(line: &str) -> Vec<Array> {
    let (before, rest) = line.split_once('{').unwrap_or(("", line));
    let (members, after) = rest.rsplit_once('}').unwrap_or((rest, ""));
    let named = |text: &str| text.replace("struct", "").replace(';', "").trim().to_string();
    let of = if named(before).is_empty() { named(after) } else { named(before) };
    let array = |member: &str| {
        let (name, count) = member.split_once('[')?;
        let count = count.split_once(']')?.0.parse().ok()?;
        Some((of.clone(), name.rsplit(' ').next()?.to_string(), count))
    };
    members.split([',', ';']).filter_map(array).collect()
}

#[test]
fn the_struct_of_the_layout() {
    let layout = text("docs/LAYOUT.md");
    let block = layout
        .split("```c")
        .nth(1)
        .and_then(|rest| rest.split("```").next())
        .expect("a block of C");
    let written: BTreeSet<Array> = block.lines().flat_map(arrays).collect();
    let own = |of: &str, name: &str, count: usize| (of.to_string(), name.to_string(), count);
    let mut expected = BTreeSet::from([
        own("slot", "key", KEY_BYTES),
        own("path", "bytes", PATH_MAX_BYTES),
        own("tap", "bytes", TAP_MAX_BYTES),
        own("pairing", "slots", SLOTS),
    ]);
    for field in Card::FIELDS {
        if let Some((part, name)) = field.path.split_once('.') {
            if field.bytes > 1 && !["slots", "current", "pinless"].contains(&name) {
                expected.insert(own(part, name, field.bytes));
            }
        }
    }
    assert_eq!(written, expected);
}

/// Constants by their names, each as it is written: a sum of products of numbers and names.
type Written = BTreeMap<String, String>;

fn value(expression: &str, written: &Written) -> usize {
    let factor = |word: &str| match word.strip_prefix("0x") {
        Some(digits) => usize::from_str_radix(digits, 16).expect(word),
        None => word.parse().unwrap_or_else(|_| value(written.get(word).expect(word), written)),
    };
    let name = |word: &str| word.rsplit("::").next().unwrap_or(word).trim().to_string();
    let product = |term: &str| term.split('*').map(|word| factor(&name(word))).product::<usize>();
    expression.split('+').map(product).sum()
}

/// The header's constants.
fn header() -> Written {
    let constant = |line: &str| {
        let line = line.split("/*").next()?.trim().trim_end_matches(',');
        let (name, expression) = line.split_once(" = ")?;
        name.starts_with("TW_").then(|| (name.to_string(), expression.to_string()))
    };
    text("include/treadlewisp.h").lines().filter_map(constant).collect()
}

/// The constants of a Rattle crate.
fn rattle(name: &str) -> Written {
    let constant = |item: &str| {
        let (name, rest) = item.rsplit_once("const ")?.1.split_once(':')?;
        let (_, expression) = rest.split_once('=')?;
        Some((name.to_string(), expression.trim().to_string()))
    };
    text(&format!("crates/{name}/src/lib.rt")).split(';').filter_map(constant).collect()
}

/// Each constant is written with that value.
fn hold(constants: &[(&str, usize)], front: &str, written: &Written) {
    for (name, number) in constants {
        let name = format!("{front}{name}");
        assert_eq!(value(&name, written), *number, "{name}");
    }
}

#[test]
fn the_constants_of_the_header() {
    let constants = named![
        SLOTS,
        SLOTS_BEFORE,
        PIN_TRIES,
        PUK_TRIES,
        WALK_DEPTH_MAX,
        UID_BYTES,
        PUBLIC_KEY_BYTES,
        PIN_BYTES,
        PUK_BYTES,
        KEY_BYTES,
        IV_BYTES,
        MAC_BYTES,
        COMPONENT_BYTES,
        PATH_MAX_BYTES,
        SLOT_BYTES,
        PATH_BYTES,
        TAP_COUNT_BYTES,
        TAP_MAX_BYTES,
        TAP_BYTES,
        APPLICATION_ID_BYTES,
        HEADER_BYTES,
        STATUS_BYTES,
        ENTROPY_BYTES_PER_CHECKSUM_BIT,
        ENTROPY_MIN_BYTES,
        ENTROPY_MAX_BYTES,
        WORD_NUMBER_BYTES,
        WORDS_MIN_BYTES,
        WORDS_MAX_BYTES,
        WORD_NUMBER_MAX,
        CARD_BYTES,
        SESSION_BYTES,
        FIELD_HEAD_BYTES,
        RECORD_FRESH_BYTES,
        RECORD_MIN_BYTES,
        RECORD_MAX_BYTES,
        RECORD_OLD_MIN_BYTES,
        RECORD_OLD_MAX_BYTES,
        ASK_ROOM_BYTES,
        ANSWER_ROOM_BYTES,
        SEAL_ROOM_BYTES,
        UNSEAL_ROOM_BYTES,
        ENTROPY_ROOM_BYTES,
        WRITE_ROOM_BYTES,
        DATA_MAX_BYTES,
        SUPPLY_MAX_BYTES,
        PAGE_BYTES,
        STACK_WIPE_BYTES,
    ];
    hold(&constants, "TW_", &header());
}

/// The header's application id is the crate's, byte by byte.
#[test]
fn the_application_id_of_the_header() {
    let header = text("include/treadlewisp.h");
    let written = header.split_once("#define TW_APPLICATION_ID {").expect("the macro").1;
    let bytes = written.split_once('}').expect("its end").0.split(", ");
    let id: Vec<u8> = bytes
        .map(|byte| u8::from_str_radix(byte.trim_start_matches("0x"), 16).expect(byte))
        .collect();
    assert_eq!(id, treadlewisp::command::APPLICATION_ID);
}

/// The proved code's lengths are the crate's, so that neither can change alone.
#[test]
fn the_constants_of_the_engine() {
    let engine = ["card", "record_rules", "refusals", "phrase_bits"]
        .into_iter()
        .flat_map(rattle)
        .collect();
    let constants = named![
        SLOTS,
        SLOTS_BEFORE,
        PIN_TRIES,
        PUK_TRIES,
        UID_BYTES,
        PUBLIC_KEY_BYTES,
        PIN_BYTES,
        PUK_BYTES,
        KEY_BYTES,
        IV_BYTES,
        PATH_MAX_BYTES,
        SLOT_BYTES,
        PATH_BYTES,
        SESSION_BYTES,
        CARD_BYTES,
        RECORD_FRESH_BYTES,
        RECORD_MIN_BYTES,
        RECORD_MAX_BYTES,
        ASK_ROOM_BYTES,
        ANSWER_ROOM_BYTES,
        SEAL_ROOM_BYTES,
        UNSEAL_ROOM_BYTES,
        ENTROPY_ROOM_BYTES,
        WRITE_ROOM_BYTES,
        ENTROPY_BYTES_PER_CHECKSUM_BIT,
    ];
    hold(&constants, "", &engine);
}

/// Class, instruction, P1 and P2 of the commands, and the length of each supply.
#[test]
fn the_numbers_of_commands_and_supplies_in_the_header() {
    use treadlewisp::command::*;
    let header = header();
    let instructions = named![
        SELECT,
        INIT,
        OPEN,
        MUTUAL,
        PAIR,
        UNPAIR,
        GET_STATUS,
        VERIFY,
        CHANGE,
        UNBLOCK,
        LOAD,
        DERIVE,
        REMOVE,
        SET_PINLESS_PATH,
        SIGN,
        EXPORT,
        SET_NDEF,
        GENERATE_MNEMONIC,
    ];
    let others = named![
        CLASS_SELECT,
        CLASS_CARD,
        P1_SELECT,
        P1_PAIR_FIRST,
        P1_PAIR_FINAL,
        P1_STATUS_TRIES,
        P1_STATUS_PATH,
        P1_CHANGE_PIN,
        P1_CHANGE_PUK,
        P1_CHANGE_SECRET,
        P1_LOAD_PLAIN,
        P1_LOAD_EXTENDED,
        P1_LOAD_SEED,
        P1_EXPORT_CURRENT,
        P1_EXPORT_DERIVE,
        P1_EXPORT_DERIVE_AND_MAKE_CURRENT,
        P1_MNEMONIC_12_WORDS,
        P1_MNEMONIC_15_WORDS,
        P1_MNEMONIC_18_WORDS,
        P1_MNEMONIC_21_WORDS,
        P1_MNEMONIC_24_WORDS,
        P2_EXPORT_PRIVATE_AND_PUBLIC,
        P2_EXPORT_PUBLIC_ONLY,
    ];
    hold(&instructions, "TW_INS_", &header);
    hold(&others, "TW_", &header);
    let count = |fronts: &[&str]| {
        header
            .keys()
            .filter(|name| fronts.iter().any(|front| name.starts_with(front)))
            .count()
    };
    assert_eq!(count(&["TW_INS_"]), instructions.len());
    assert_eq!(count(&["TW_CLASS_", "TW_P1_", "TW_P2_"]), others.len());
    for kind in SupplyKind::ALL {
        let Some(command_name) = kind.command_name() else { continue };
        let short_name = command_name.trim_start_matches("GENERATE ").to_uppercase().replace(' ', "_");
        let name = format!("TW_SUPPLY_{short_name}");
        assert_eq!(value(&name, &header), usize::from(kind.number()), "{name}");
        // The length of GENERATE MNEMONIC's supply goes by P1.
        if kind != SupplyKind::Mnemonic {
            assert_eq!(value(&format!("{name}_BYTES"), &header), kind.bytes(0x00), "{name}_BYTES");
        }
    }
    for phrase in Phrase::ALL {
        let p1 = value(&format!("TW_P1_MNEMONIC_{}_WORDS", phrase.words()), &header);
        assert_eq!(p1, usize::from(phrase.checksum_bits()));
        assert_eq!(p1 * value("TW_ENTROPY_BYTES_PER_CHECKSUM_BIT", &header), phrase.entropy_bytes());
        assert_eq!(SupplyKind::Mnemonic.bytes(phrase.checksum_bits()), phrase.entropy_bytes());
    }
}

/// The numbers of refusals, by their names in the header and in this crate.
#[test]
fn the_refusals_of_the_header() {
    let header = header();
    let names = [
        "UNSOUND",
        "ROOM",
        "BAD_SUPPLY",
        "MALFORMED",
        "TOO_DEEP",
        "TOO_LONG",
        "NOT_GENUINE",
        "NOT_RECORD",
        "WRONG_COUNT",
        "NUMBER_TOO_LARGE",
        "WRONG_CHECKSUM",
    ];
    for (name, refusal) in names.iter().zip(Refusal::ALL) {
        assert_eq!(value(&format!("TW_{name}"), &header), usize::from(refusal.number()), "{name}");
        let camel = format!("{refusal:?}").to_uppercase();
        assert_eq!(name.replace('_', ""), camel);
    }
    assert_eq!(names.len(), Refusal::ALL.len());
}

#[test]
fn the_offsets_of_the_header() {
    let header = header();
    let offsets = header.keys().filter(|name| name.starts_with("TW_AT_"));
    let written: BTreeMap<String, usize> = offsets.map(|name| (name.clone(), value(name, &header))).collect();
    let own = |field: &CardField| (format!("TW_AT_{}", field.name.to_uppercase()), field.offset);
    assert_eq!(written, Card::FIELDS.iter().map(own).collect());
}
