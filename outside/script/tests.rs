//! What the parser and the player do with right and bad lines, on the model. A bad line gives its reason and changes nothing.

use super::bytes::{bytes_of, number_of, Fault};
use super::call::{call_of, Call};
use super::engine::{Engine, Library, Model};
use super::fields::{card_fields, session_fields};
use super::lines::{lines_of, words_of, Line};
use super::play::{AsksForHelp, Player};
use outside::ffi::treadlewisp::{CARD_BYTES, SESSION_BYTES};

fn bytes(word: &str) -> Result<Vec<u8>, Fault> {
    bytes_of(word.as_bytes(), &[0xd1, 0xd2])
}

fn reason(line: &str) -> String {
    call_of(line.as_bytes(), &[7; 773]).expect_err(line)
}

fn call(line: &str) -> Call {
    call_of(line.as_bytes(), &[7; 773]).expect(line)
}

/// All that is written for a script, on the model and the same on the library.
pub fn played(script: &str) -> String {
    let [model, library] = [&mut Model::new() as &mut dyn Engine, &mut Library::new()].map(|engine| {
        let mut player = Player::new(engine);
        assert_eq!(player.play(script.as_bytes()), Ok(()));
        String::from_utf8(player.written).expect("text")
    });
    assert_eq!(model, library);
    model
}

const CARD_OF_ZEROS: &str =
    "  card: initialised 0, stage 0, verified 0, PIN tries 0, PUK tries 0, slots 0 0 0 0 0 0 0 0, pending 0, key kind 0, \
                             current path 0 bytes, PIN-less path 0 bytes, tap record 0 bytes\n";

#[test]
fn lines_end_with_lf_and_may_have_a_cr() {
    assert_eq!(lines_of(b""), []);
    assert_eq!(lines_of(b"\n"), [Line::Blank]);
    assert_eq!(lines_of(b"card"), [Line::Call(b"card")]);
    assert_eq!(lines_of(b"card\n"), [Line::Call(b"card")]);
    assert_eq!(lines_of(b"card\n\n"), [Line::Call(b"card"), Line::Blank]);
    assert_eq!(lines_of(b" card \r\nreset\r"), [Line::Call(b" card "), Line::Call(b"reset")]);
    assert_eq!(lines_of(b"\r\n\r"), [Line::Blank, Line::Blank]);
    assert_eq!(lines_of(b"card\r\r\n"), [Line::Call(b"card\r")]);
    assert_eq!(
        lines_of(b" \t \n\t# x \n#\n"),
        [Line::Blank, Line::Comment(b"\t# x "), Line::Comment(b"#")]
    );
    assert_eq!(lines_of(b"card # x"), [Line::Call(b"card # x")]);
}

#[test]
fn a_line_has_at_most_4096_bytes() {
    assert_eq!(lines_of(&[b'#'; 4096]), [Line::Comment(&[b'#'; 4096])]);
    assert_eq!(lines_of(&[b'#'; 4097]), [Line::TooLong]);
    assert_eq!(lines_of(&[b' '; 4097]), [Line::TooLong]);
    assert_eq!(lines_of(&[&[b'#'; 4095][..], b"\r\n"].concat()), [Line::Comment(&[b'#'; 4095])]);
    assert_eq!(lines_of(&[&[b'#'; 4096][..], b"\r\n"].concat()), [Line::TooLong]);
}

#[test]
fn words_have_spaces_and_tabs_between_them() {
    assert_eq!(words_of(b"\t a  b\tc "), [b"a", b"b", b"c"]);
    assert_eq!(words_of(b"a\x0bb\rc"), [b"a\x0bb\rc"]);
}

#[test]
fn pieces_of_bytes() {
    assert_eq!(bytes("-"), Ok(vec![]));
    assert_eq!(bytes("00A40400"), Ok(vec![0x00, 0xa4, 0x04, 0x00]));
    assert_eq!(bytes("aBcD"), Ok(vec![0xab, 0xcd]));
    assert_eq!(bytes("5a*3"), Ok(vec![0x5a; 3]));
    assert_eq!(bytes("5A*0"), Ok(vec![]));
    assert_eq!(bytes("5A*0002"), Ok(vec![0x5a; 2]));
    assert_eq!(bytes("FE+4"), Ok(vec![0xfe, 0xff, 0x00, 0x01]));
    assert_eq!(bytes("00+0"), Ok(vec![]));
    assert_eq!(bytes("01+1024").map(|rising| (rising.len(), rising[1023])), Ok((1024, 0x00)));
    assert_eq!(bytes("last"), Ok(vec![0xd1, 0xd2]));
}

#[test]
fn pieces_are_joined() {
    assert_eq!(bytes("01.11*2"), Ok(vec![0x01, 0x11, 0x11]));
    assert_eq!(bytes("last.00.last.0A+2"), Ok(vec![0xd1, 0xd2, 0x00, 0xd1, 0xd2, 0x0a, 0x0b]));
    assert_eq!(bytes_of(b"last.01", &[]), Ok(vec![0x01]));
    for word in [".", "..", "01.", ".01", "01..02", "-.01", "01.-", "--"] {
        assert_eq!(bytes(word), Err(Fault::Form), "{word}");
    }
}

#[test]
fn pieces_of_wrong_form() {
    let words = [
        "0", "012", "0g", "g0", "0x00", "00*", "00+", "*3", "0*3", "000*3", "00*1025", "00+1025", "00*00001", "00*-1",
    ];
    let more = [
        "00*1a",
        "00**1",
        "00*1*1",
        "Last",
        "LAST",
        "lastlast",
        "last*2",
        "00*last",
        "room",
        "00,00",
        "\u{e9}\u{e9}",
    ];
    for word in words.iter().chain(&more) {
        assert_eq!(bytes(word), Err(Fault::Form), "{word}");
    }
}

#[test]
fn a_word_means_at_most_1024_bytes() {
    assert_eq!(bytes(&"00".repeat(1024)), Ok(vec![0; 1024]));
    assert_eq!(bytes(&"00".repeat(1025)), Err(Fault::TooMany));
    assert_eq!(bytes("00*1024.00*0"), Ok(vec![0; 1024]));
    assert_eq!(bytes("00*1024.00"), Err(Fault::TooMany));
    assert_eq!(bytes_of(b"last.last", &[7; 773]), Err(Fault::TooMany));
}

#[test]
fn the_first_fault_from_the_left_decides() {
    assert_eq!(bytes("00*1024.00.zz"), Err(Fault::TooMany));
    assert_eq!(bytes("zz.00*1024.00"), Err(Fault::Form));
    assert_eq!(bytes("00*1024.zz"), Err(Fault::Form));
    assert_eq!(bytes("00*1024.00*1025"), Err(Fault::Form));
}

#[test]
fn numbers() {
    for (digits, number) in [("0", 0), ("7", 7), ("0007", 7), ("1024", 1024)] {
        assert_eq!(number_of(digits.as_bytes()), Some(number));
    }
    for digits in ["", "1025", "9999", "00000", "01024", "+1", "-1", "1 ", "a"] {
        assert_eq!(number_of(digits.as_bytes()), None, "{digits}");
    }
}

#[test]
fn unknown_calls() {
    for line in ["Card", "cards", "car", "1", "CARD", "card\u{b}", "? x", "quit"] {
        assert_eq!(reason(line), "no such call, help lists them", "{line}");
    }
}

#[test]
fn wrong_numbers_of_words() {
    let names = [
        "help", "fresh", "reset", "ask", "answer", "seal", "unseal", "send", "walk", "entropy", "write", "read", "tap", "sound", "card",
        "set", "session",
    ];
    let counts: [&[usize]; 17] = [
        &[1],
        &[3],
        &[1],
        &[2, 4],
        &[3, 5],
        &[3, 5],
        &[2, 4],
        &[4],
        &[2],
        &[2, 4],
        &[1, 3],
        &[2],
        &[3],
        &[1],
        &[1],
        &[3],
        &[1, 2, 4],
    ];
    for (name, counts) in names.iter().zip(counts) {
        for words in (1..8).filter(|words| !counts.contains(words)) {
            let line = format!("{name}{}", " zz".repeat(words - 1));
            assert_eq!(reason(&line), format!("{name} takes other words, help lists them"), "{line}");
        }
    }
    assert_eq!(reason("session cards"), "session takes other words, help lists them");
    assert_eq!(reason("session -"), "session takes other words, help lists them");
}

#[test]
fn arguments_are_not_bytes() {
    let lines = [
        ("fresh zz zz", "UID"),
        ("fresh 00*16 zz", "KEY"),
        ("ask zz", "COMMAND"),
        ("answer zz zz", "COMMAND"),
        ("answer - zz", "SUPPLY"),
        ("seal zz zz", "HEADER"),
        ("seal 00*4 zz", "DATA"),
        ("unseal zz", "RESPONSE"),
        ("send zz zz zz", "HEADER"),
        ("send 00*4 zz zz", "DATA"),
        ("send 00*4 - zz", "SUPPLY"),
        ("walk zz", "BYTES"),
        ("entropy zz", "WORDS"),
        ("read zz", "RECORD"),
        ("tap zz zz", "RECORD"),
        ("tap - zz", "FACTORY"),
        ("set pin zz", "BYTES"),
        ("session zz zz zz", "ENC"),
        ("session 00*32 zz zz", "MAC"),
        ("session 00*32 00*32 zz", "IV"),
    ];
    for (line, name) in lines {
        assert_eq!(reason(line), format!("{name} is not bytes"), "{line}");
        let line = line.replacen("zz", "00*1024.00", 1);
        assert_eq!(reason(&line), format!("{name} has more than 1024 bytes"), "{line}");
    }
}

#[test]
fn arguments_of_wrong_length() {
    let lines = [
        ("fresh - zz", "UID has 16 bytes, not 0 bytes"),
        ("fresh 00*16 00*66", "KEY has 65 bytes, not 66 bytes"),
        ("seal 00*5 zz", "HEADER has 4 bytes, not 5 bytes"),
        ("send 00 zz zz", "HEADER has 4 bytes, not 1 byte"),
        ("session 00*31 zz zz", "ENC has 32 bytes, not 31 bytes"),
        ("session 00*32 00*33 zz", "MAC has 32 bytes, not 33 bytes"),
        ("session 00*32 00*32 last", "IV has 16 bytes, not 773 bytes"),
        ("set pin 00*7", "pin has 6 bytes, not 7 bytes"),
        ("set stage 0000", "stage has 1 byte, not 2 bytes"),
        ("set tap.len 0000", "tap.len has 1 byte, not 2 bytes"),
        ("set tap.bytes 00*222", "tap.bytes has 223 bytes, not 222 bytes"),
        ("set tap 00", "the card has no such field"),
        ("set slot7.key -", "slot7.key has 32 bytes, not 0 bytes"),
        ("set nothing zz", "the card has no such field"),
        ("set slot8.key 00*32", "the card has no such field"),
        ("set PIN 00*6", "the card has no such field"),
    ];
    for (line, wanted) in lines {
        assert_eq!(reason(line), wanted, "{line}");
    }
}

#[test]
fn rooms() {
    assert_eq!(call("ask -"), Call::Ask(vec![], 255));
    assert_eq!(call("answer - -"), Call::Answer(vec![], vec![], 258));
    assert_eq!(call("seal 00*4 -"), Call::Seal([0; 4], vec![], 261));
    assert_eq!(call("unseal -"), Call::Unseal(vec![], 223));
    assert_eq!(call("write"), Call::Write(773));
    assert_eq!(call("entropy -"), Call::Entropy(vec![], 32));
    assert_eq!(call("ask 01 room 0"), Call::Ask(vec![1], 0));
    assert_eq!(call("answer 01 02 room 1024"), Call::Answer(vec![1], vec![2], 1024));
    assert_eq!(call("seal 00*4 01 room 0261"), Call::Seal([0; 4], vec![1], 261));
    assert_eq!(call("unseal 01\troom\t7"), Call::Unseal(vec![1], 7));
    assert_eq!(call("write room 1"), Call::Write(1));
    assert_eq!(call("entropy 0001 room 31"), Call::Entropy(vec![0, 1], 31));
    for words in [
        "room 1025",
        "room -1",
        "room 00001",
        "room x",
        "Room 1",
        "rooms 1",
        "1 room",
        "room room",
    ] {
        for start in ["ask -", "answer - -", "seal 00*4 -", "unseal -", "entropy -", "write"] {
            let line = format!("{start} {words}");
            assert_eq!(reason(&line), "the room is a number of bytes, 0 to 1024", "{line}");
        }
    }
    assert_eq!(reason("answer - zz room x"), "SUPPLY is not bytes");
    assert_eq!(reason("seal 00 - room x"), "HEADER has 4 bytes, not 1 byte");
}

#[test]
fn the_fields_fill_the_records() {
    for (fields, record_bytes) in [(card_fields(), CARD_BYTES), (session_fields(), SESSION_BYTES)] {
        assert_eq!(fields.iter().map(|field| field.1.len()).sum::<usize>(), record_bytes);
        assert_eq!(fields.last().map(|field| field.1.end), Some(record_bytes));
    }
    let place = |name: &str| card_fields().into_iter().find(|field| field.0 == name).map(|field| field.1.start);
    for (name, start) in [
        ("pin", 82),
        ("slot1.filled", 168),
        ("slot7.key", 367),
        ("pending", 399),
        ("pinless.len", 506),
        ("iv", 612),
        ("tap.len", 628),
        ("tap.bytes", 629),
    ] {
        assert_eq!(place(name), Some(start), "{name}");
    }
}

#[test]
fn every_line_is_written_again() {
    let script = "# comment \r\n\n \t\nwalk  - \r\nnonsense\n";
    let wanted = "# comment \n\n\n> walk  - \nwalk: 0 fields\n> nonsense\nbad line: no such call, help lists them; nothing changed\n";
    assert_eq!(played(script), wanted);
    let long = "x".repeat(4097);
    assert_eq!(played(&long), "bad line: longer than 4096 bytes; nothing changed\n");
}

#[test]
fn the_last_bytes_are_those_that_were_written() {
    let script =
        "walk last\nwrite\nwrite room 772\nread last\nask 80F20000\nwalk last\nanswer - -\nsound\nread 80.last\nwalk last\nwalk 80.last\n";
    let record = ["10000100110010", &"00".repeat(16), "120041", &"00".repeat(65)].concat();
    let wanted = [
        "> walk last\nwalk: 0 fields\n> write\nwrite: 91 bytes: ",
        &record,
        "\n> write room 772\nwrite: refusal 2, the buffer has fewer than 773 bytes\n> read last\nread: done\n",
        CARD_OF_ZEROS,
        "> ask 80F20000\nask: kind 0, no supply is read\n> walk last\nwalk: refusal 4, malformed\n  field at byte 90: 00\n",
        "> answer - -\nanswer: 2 bytes: 6700\n  status word 6700, wrong length\n",
        CARD_OF_ZEROS,
        "> sound\nsound: yes\n> read 80.last\nread: refusal 8, the bytes are no stored record, the card is FRESH of zeros\n",
        CARD_OF_ZEROS,
        "> walk last\nwalk: 0 fields\n> walk 80.last\nwalk: refusal 4, malformed\n  field at byte 0: 80\n",
    ];
    assert_eq!(played(script), wanted.concat());
}

#[test]
fn a_tap_read_shows_the_part_and_changes_nothing() {
    for (slots, offset_bytes) in [("2400A5.00*165", 339), ("240108.00*264", 438)] {
        let record = format!(
            "10000101.110010.A0+16.120041.04+65.200006.31+6.21000C.30*12.220020.70+32.2300020305.{slots}.30000100.310000.320000.330000"
        );
        tap_reads(&record, offset_bytes);
    }
}

/// The tap reads of a record that ends before field 34, and of it with such a field, whose content is at this offset.
fn tap_reads(record: &str, offset_bytes: usize) {
    let script = format!(
        "tap - -\ntap 00 0102\ntap {record} 0102\ntap {record}.340000 -\ntap {record}.3400020000 0102\ntap {record}.340003000155 0102\n\
         tap {record}.340003000255 0102\nwalk last\nwrite\ntap last AB\nread last\n"
    );
    let written = played(&script);
    let said: Vec<&str> = written.lines().filter(|line| !line.starts_with("> ")).collect();
    let refused = "tap: refusal 8, the bytes are no stored record, the part is empty";
    let fresh = format!("write: 91 bytes: 10000100110010{}120041{}", "00".repeat(16), "00".repeat(65));
    let wanted = [
        refused,
        refused,
        "tap: factory, offset 0, 2 bytes: 0102",
        "tap: factory, offset 0, 0 bytes",
        &format!("tap: record, offset {offset_bytes}, 2 bytes: 0000"),
        &format!("tap: record, offset {offset_bytes}, 3 bytes: 000155"),
        refused,
        "walk: 0 fields",
        &fresh,
        "tap: factory, offset 0, 1 byte: AB",
        "read: done",
        CARD_OF_ZEROS.trim_end(),
    ];
    assert_eq!(said, wanted);
}

#[test]
fn a_session_is_taken_from_the_card_and_not_from_its_end() {
    let written = played("set enc_key 11*32\nset mac_key 22*32\nset iv 33*16\nset tap.bytes 44*223\nsession card\nsession\n");
    let wanted = format!(
        "  enc_key 32 bytes: {}\n  mac_key 32 bytes: {}\n  iv 16 bytes: {}\n",
        "11".repeat(32),
        "22".repeat(32),
        "33".repeat(16)
    );
    assert!(written.ends_with(&wanted), "{written}");
}

#[test]
fn a_send_that_is_refused_leaves_the_session() {
    let written = played("session 11*32 22*32 33*16\nset initialised 02\nsend 80F20000 - -\nsession\n");
    let wanted = [
        "\nask: refusal 1, the card is not sound\n  session: as before\n> session\nsession: 80 bytes\n  enc_key 32 bytes: ",
        &"11".repeat(32),
        "\n  mac_key 32 bytes: ",
        &"22".repeat(32),
        "\n  iv 16 bytes: ",
        &"33".repeat(16),
        "\n",
    ];
    assert!(written.ends_with(&wanted.concat()), "{written}");
}

#[test]
fn a_send_goes_as_far_as_it_can() {
    let written = played("send 80F20000 00*224 -\nsend 80F20000 - -\nsession card\n");
    let start =
        "> send 80F20000 00*224 -\nseal: refusal 6, the data has more than 223 bytes\n> send 80F20000 - -\nseal: 37 bytes: 80F2000020";
    let end = [
        "\nask: kind 0, no supply is read\nanswer: 2 bytes: 6D00\n  status word 6D00, unknown instruction\nunseal: refusal 7, not genuine\n",
        CARD_OF_ZEROS,
        "> session card\nsession: taken\n",
    ];
    assert!(written.starts_with(start) && written.ends_with(&end.concat()), "{written}");
}

#[test]
fn help_is_not_played() {
    let mut model = Model::new();
    let mut player = Player::new(&mut model);
    assert_eq!(player.play(b"sound\nhelp\nsound\n"), Err(AsksForHelp));
    assert_eq!(player.written, b"> sound\nsound: yes\n> help\n");
}
