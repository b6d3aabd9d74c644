//! What is written for a fault of a template: after a refused WALK, after ANSWER and within a send, and nothing where there is no number.

use super::tests::played;

/// A card in stage 2 with the PIN verified, and the terminal's session with it.
const READY: &str = "set initialised 01\nset pin 31*6\nset puk 32*12\nset pin_tries 03\nset puk_tries 05\nset stage 02\nset verified 01\n\
                     set enc_key 11*32\nset mac_key 22*32\nset iv 33*16\nsession card\n";

/// What is written after the last of these calls, without the bytes that are sealed and without the card.
pub fn said(calls: &str) -> Vec<String> {
    let written = played(&format!("{READY}{calls}\n"));
    let (_, last) = written.rsplit_once("\n> ").expect("a call");
    let lines = last.lines().skip(1).filter(|line| !line.starts_with("  card: "));
    let without_bytes = |line: &str| match line.split_once(':') {
        Some((name @ ("seal" | "answer"), _)) => name.to_string(),
        _ => line.to_string(),
    };
    lines.map(without_bytes).collect()
}

#[test]
fn a_refused_walk_shows_the_faulty_field() {
    for (input, refusal, field) in [
        ("80", "refusal 4, malformed", "0: 80"),
        ("8000.cf", "refusal 4, malformed", "2: CF"),
        ("A102.01ff", "refusal 4, malformed", "2: 01"),
        ("A108.A106.A104.A102.bf00", "refusal 5, too deep", "8: BF"),
        ("8000*128.0A", "refusal 4, malformed", "256: 0A"),
    ] {
        let input = input.replace("8000*128", &["8000"; 128].concat());
        let wanted = [format!("walk: {refusal}"), format!("  field at byte {field}")];
        assert_eq!(said(&format!("walk {input}")), wanted, "{input}");
    }
    assert_eq!(said("walk A1028000"), ["walk: 1 field"]);
}

#[test]
fn an_answer_with_a_number_shows_the_offset() {
    let load = "seal 80D00100 A10280FF\nanswer last -";
    assert_eq!(said(load), ["answer", "  status word 9000, success", "  field at byte 2"]);
    let load = "seal 80D00300 A10280FF\nanswer last -";
    assert_eq!(said(load), ["answer", "  status word 9000, success"]);
    let refused = "seal 80D00100 A10280FF\nanswer last - room 257";
    assert_eq!(said(refused), ["answer"]);
}

#[test]
fn a_send_with_a_number_shows_the_byte_too() {
    let opened = ["unseal: 2 bytes: 6A80", "  status word 6A80, wrong data"];
    let before = ["seal", "ask: kind 0, no supply is read", "answer", "  status word 9000, success"];
    for (p1_and_data, field) in [
        ("0100 A10280FF", Some("2: 80")),
        ("0200 c0", Some("0: C0")),
        ("0200 A108.A106.A104.A102.ef00", Some("8: EF")),
        ("0100 8000", None),
        ("0100 -", None),
        ("0300 A10280FF", None),
    ] {
        let mut wanted: Vec<String> = before.iter().map(|line| line.to_string()).collect();
        wanted.extend(field.map(|field| format!("  field at byte {field}")));
        wanted.extend(opened.iter().map(|line| line.to_string()));
        assert_eq!(said(&format!("send 80D0{p1_and_data} -")), wanted, "{p1_and_data}");
    }
}
