//! What is written for word numbers: a line of a send whose answer has them, and nothing elsewhere; and the entropy that they go back to.

use super::fault_tests::said;

const PUBLISHED: &str = "0000.0000.0000.0000.0000.0000.0000.0000.0000.0000.0000.0003";

#[test]
fn a_send_shows_the_words() {
    let before = [
        "seal",
        "ask: kind 10, MNEMONIC: 4 times P1 bytes: entropy",
        "  data 0 bytes",
        "answer",
        "  status word 9000, success",
    ];
    let opened = ["unseal: 26 bytes: 0000000000000000000000000000000000000000000000039000"];
    let words = ["  status word 9000, success", "  12 words: 0 0 0 0 0 0 0 0 0 0 0 3"];
    assert_eq!(said("send 80D20400 - 00*16"), [&before[..], &opened, &words].concat());
    for (p1_and_supply, words) in [
        ("05 FF*20", ["2047"; 14].join(" ") + " 2035"),
        (
            "06 80*24",
            "1028 32 257 8 64 514 16 128 1028 32 257 8 64 514 16 128 1028 60".to_string(),
        ),
        ("08 00*32", ["0"; 23].join(" ") + " 102"),
    ] {
        let (p1, supply) = p1_and_supply.split_once(' ').expect("P1 and supply");
        let lines = said(&format!("send 80D2{p1}00 - {supply}"));
        let count = words.split(' ').count();
        assert_eq!(lines.last(), Some(&format!("  {count} words: {words}")), "{p1_and_supply}");
    }
}

#[test]
fn other_answers_show_no_words() {
    for (calls, last) in [
        ("send 80D20300 - 00*12", "  status word 6A86, wrong P1 or P2"),
        ("send 80D20400 00 00*16", "  status word 6A80, wrong data"),
        ("send 80D20400 - 00*15", "  session: as before"),
        ("send 80F20000 - -", "  status word 9000, success"),
        ("reset\nsend 80D20400 - 00*16", "unseal: refusal 7, not genuine"),
        ("seal 80D20400 -\nanswer last 00*16\nunseal last", "  status word 9000, success"),
    ] {
        assert_eq!(said(calls).last().map(String::as_str), Some(last), "{calls}");
    }
}

#[test]
fn entropy_is_shown_and_is_the_last() {
    let calls = format!("entropy {PUBLISHED}");
    assert_eq!(said(&calls), [format!("entropy: 16 bytes: {}", "00".repeat(16))]);
    assert_eq!(said(&format!("{calls}\nwalk last")), ["walk: 8 fields"]);
    let words = format!("{}.07F5", ["07FF"; 11].join("."));
    assert_eq!(
        said(&format!("entropy {words} room 1024")),
        [format!("entropy: 16 bytes: {}", "FF".repeat(16))]
    );
}

#[test]
fn refusals_of_entropy() {
    let checksum = PUBLISHED.replace("0003", "0002");
    let large = checksum.replacen("0000", "0800", 1);
    let more = format!("{large}.00");
    for (words, room, wanted) in [
        (&more[..], 31, "2, the buffer has fewer than 32 bytes"),
        (PUBLISHED, 0, "2, the buffer has fewer than 32 bytes"),
        (&more, 32, "9, not 12, 15, 18, 21 or 24 numbers of 2 bytes"),
        ("-", 32, "9, not 12, 15, 18, 21 or 24 numbers of 2 bytes"),
        (&large, 32, "10, a number is over 2047"),
        (&checksum, 32, "11, the checksum differs"),
    ] {
        let wanted = format!("entropy: refusal {wanted}");
        assert_eq!(said(&format!("entropy {words} room {room}")), [wanted], "{words}");
        // The last bytes stay those of before.
        let kept = format!("write\nentropy {words} room {room}\nread last");
        assert_eq!(said(&kept), ["read: done"], "{words}");
    }
}
