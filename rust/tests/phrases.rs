//! GENERATE MNEMONIC and ENTROPY: recovery phrases from entropy to the numbers of words, and back (docs/RULES.md; BIP 39). What comes is held
//! against BIP 39's own tests, and against numbers that the tests work out, bit by bit, with the plain SHA-256 of outside/. Lengths are in bytes.

#[path = "common/desk.rs"]
mod desk;

mod common;

use common::*;
use desk::Desk;
use treadlewisp::command::*;
use treadlewisp::*;

/// Bytes that are like no others, by a small generator.
fn made_up(seed: usize, bytes: usize) -> Vec<u8> {
    let mut state = (seed as u32 + 1).wrapping_mul(2_654_435_761);
    let next = |_| {
        state = state.wrapping_mul(1_664_525).wrapping_add(1_013_904_223);
        (state >> 24) as u8
    };
    (0..bytes).map(next).collect()
}

/// GENERATE MNEMONIC over the channel with this entropy: what the card answers inside it.
fn generated(life: &mut Life, p1: u8, entropy: &[u8]) -> Vec<u8> {
    let command = life.seal(GENERATE_MNEMONIC, p1, &[]);
    let mut response = [FILL; ANSWER_ROOM_BYTES];
    let answered = life.card.answer(&command, entropy, &mut response).expect("ANSWER");
    assert_eq!(answered.fault_offset, None);
    let mut opened = [FILL; UNSEAL_ROOM_BYTES];
    let opened_bytes = life.terminal.unseal(&response[..answered.count], &mut opened).expect("UNSEAL");
    opened[..opened_bytes].to_vec()
}

/// The entropy of these words, by both functions; bytes past it stay.
fn reversed(words: &[u8]) -> Result<Vec<u8>, Refusal> {
    let mut buffer = [FILL; ENTROPY_ROOM_BYTES + 9];
    let count = entropy_into(words, &mut buffer);
    assert!(buffer[count.unwrap_or(0)..].iter().all(|&byte| byte == FILL));
    let given = entropy(words).map(|entropy| entropy.bytes().to_vec());
    assert_eq!(count.map(|count| buffer[..count].to_vec()), given);
    given
}

/// The card after is the card before, but for the channel's IV.
fn only_iv_moved(before: &Card, after: &Card) {
    let mut bytes = before.to_bytes();
    bytes[place("iv")].copy_from_slice(&after.to_bytes()[place("iv")]);
    assert_eq!(after.to_bytes(), bytes);
    assert_ne!(after, before);
}

/// BIP 39's tests: the same byte all over, and the numbers of its words but for the last.
#[test]
fn published_phrases() {
    let (legal, letter) = (
        [1019, 2015, 1790, 2039, 1983, 1533, 2031, 1919],
        [1028, 32, 257, 8, 64, 514, 16, 128],
    );
    let published: [(u8, [u16; 8], [u16; 3]); 4] = [
        (0x00, [0; 8], [3, 39, 102]),          // abandon, .. about, agent, art
        (0x7F, legal, [2040, 2009, 1815]),     // legal winner thank year .. yellow, will, title
        (0x80, letter, [4, 60, 189]),          // letter advice cage absurd .. above, always, bless
        (0xFF, [2047; 8], [2037, 2001, 1967]), // zoo, .. wrong, when, vote
    ];
    let mut life = Life::in_channel();
    for (byte, repeated, last) in published {
        for (phrase, last) in [Phrase::Words12, Phrase::Words18, Phrase::Words24].into_iter().zip(last) {
            let entropy = vec![byte; phrase.entropy_bytes()];
            let mut words: Vec<u16> = repeated.into_iter().cycle().take(phrase.words() - 1).collect();
            words.push(last);
            assert_eq!(word_numbers(&entropy), words, "as the tests work them out");
            let opened = generated(&mut life, phrase.checksum_bits(), &entropy);
            assert_eq!(opened, [in_bytes(&words), vec![0x90, 0x00]].concat());
            assert_eq!(reversed(&in_bytes(&words)), Ok(entropy));
        }
    }
}

/// Entropy to words and back, of each length.
#[test]
fn from_entropy_and_back() {
    let mut life = Life::in_channel();
    for phrase in Phrase::ALL {
        for seed in 0..64 {
            let entropy = made_up(seed, phrase.entropy_bytes());
            let opened = generated(&mut life, phrase.checksum_bits(), &entropy);
            let (words, status) = opened.split_at(phrase.words_bytes());
            assert_eq!(
                (words, status),
                (&in_bytes(&word_numbers(&entropy))[..], &[0x90, 0x00][..]),
                "{phrase:?}"
            );
            assert_eq!(reversed(words), Ok(entropy));
        }
    }
}

/// Words to entropy and back: any numbers of 11 bits, with each of the checksums that the last one can end with. ENTROPY takes one of them, and
/// the card makes the same words of what it gives.
#[test]
fn from_words_and_back() {
    let mut life = Life::in_channel();
    for phrase in Phrase::ALL {
        let checksums = 1 << phrase.checksum_bits();
        for seed in 0..4 {
            let random = made_up(1_000 + seed, phrase.words_bytes());
            let mut words: Vec<u16> = random.chunks(2).map(|pair| u16::from_be_bytes([pair[0] & 0x07, pair[1]])).collect();
            let last = words.pop().expect("a number") / checksums * checksums;
            let mut taken = 0;
            for checksum in 0..checksums {
                let whole = in_bytes(&[&words[..], &[last + checksum]].concat());
                match reversed(&whole) {
                    Ok(entropy) => {
                        taken += 1;
                        assert_eq!(in_bytes(&word_numbers(&entropy)), whole);
                        let opened = generated(&mut life, phrase.checksum_bits(), &entropy);
                        assert_eq!(opened, [&whole[..], &[0x90, 0x00]].concat());
                    }
                    refused => assert_eq!(refused, Err(Refusal::WrongChecksum)),
                }
            }
            assert_eq!(taken, 1, "{phrase:?}");
        }
    }
}

/// A phrase with one bit changed is taken exactly if its checksum is right by chance; its entropy is then another one.
#[test]
fn one_bit_changed() {
    for phrase in Phrase::ALL {
        let whole = in_bytes(&word_numbers(&ENTROPY[..phrase.entropy_bytes()]));
        for bit in 0..8 * whole.len() {
            let mut words = whole.clone();
            words[bit / 8] ^= 0x80 >> (bit % 8);
            let digits = |word: &[u8]| bits(word)[5..].to_string();
            let joined: String = words.chunks(2).map(digits).collect();
            let entropy: Vec<u8> = (0..phrase.entropy_bytes())
                .map(|at| u8::from_str_radix(&joined[8 * at..8 * at + 8], 2).expect("binary digits"))
                .collect();
            let expected = match bit % 16 {
                0..=4 => Err(Refusal::NumberTooLarge),
                _ if in_bytes(&word_numbers(&entropy)) == words => Ok(entropy),
                _ => Err(Refusal::WrongChecksum),
            };
            assert_eq!(reversed(&words), expected, "{phrase:?}, bit {bit}");
        }
    }
}

/// 2 before 9, 9 before 10, 10 before 11: whatever else is wrong, the first is given, and the buffer stays.
#[test]
fn the_order_of_refusals() {
    let right = in_bytes(&word_numbers(&ENTROPY[..16]));
    let large = [&[0x08, 0x00], &right[2..]].concat();
    let mut large_at_the_end = [&right[..22], &[0xFF, 0xFF]].concat();
    let checksum = [&right[..23], &[right[23] ^ 0x01]].concat();
    let counts = [
        &right[..23],
        &right[..22],
        &[&right[..], &[0x00]].concat(),
        &[],
        &[0xFF; 49],
        &[0xFF; 96],
    ];
    for wrong in counts.into_iter().chain([&right[..], &large, &checksum]) {
        for room in [0, 1, 16, 31] {
            let mut buffer = vec![FILL; room];
            assert_eq!(entropy_into(wrong, &mut buffer), Err(Refusal::Room), "{room} bytes of room");
            assert_eq!(buffer, vec![FILL; room]);
        }
    }
    for wrong in counts {
        assert_eq!(reversed(wrong), Err(Refusal::WrongCount), "{} bytes", wrong.len());
    }
    for wrong in [&large, &large_at_the_end] {
        assert_eq!(reversed(wrong), Err(Refusal::NumberTooLarge));
    }
    large_at_the_end[22] = 0x07;
    assert_eq!(reversed(&large_at_the_end), Err(Refusal::WrongChecksum));
    assert_eq!(reversed(&checksum), Err(Refusal::WrongChecksum));
    assert_eq!(reversed(&right), Ok(ENTROPY[..16].to_vec()));
}

/// Through a host: it is asked for the phrase, the record is stored, and the terminal has the words. The card keeps nothing of them: a PIN that
/// is verified stays so, and no PIN, no tries and no key are needed.
#[test]
fn a_life_with_a_host() {
    let (mut life, mut desk) = (Life::in_channel(), Desk::new());
    let mut blocked = life.clone();
    for _ in 0..PIN_TRIES {
        blocked.sealed_status(VERIFY, 0x00, WRONG_PIN);
    }
    assert_eq!(blocked.card.pin_tries(), 0);
    let mut verified = life.clone();
    assert_eq!(verified.sealed_status(VERIFY, 0x00, PIN), StatusWord::SUCCESS);
    for life in [&mut life, &mut blocked, &mut verified] {
        for phrase in Phrase::ALL {
            let before = life.card.clone();
            let command = ChannelCommand::generate_mnemonic(phrase);
            let answer = exchange(&mut life.terminal, &mut life.card, &mut desk, &command).expect("an answer");
            assert_eq!((answer.status(), answer.fault_offset()), (StatusWord::SUCCESS, None));
            let own = &ENTROPY[..phrase.entropy_bytes()];
            assert_eq!(answer.data(), in_bytes(&word_numbers(own)));
            assert_eq!(entropy(answer.data()).expect("entropy").bytes(), own);
            assert_eq!(desk.take_notes(), [format!("mnemonic {phrase:?}"), "store".into()]);
            only_iv_moved(&before, &life.card);
            let mut off = before.clone();
            off.reset().expect("RESET");
            assert_eq!(Card::read(&desk.record), Ok(off));
        }
    }
    assert!(verified.card.is_verified());
}

/// A host whose entropy has the length of another phrase: refused, nothing is stored, and the card is as it was. The same where it has none.
#[test]
fn a_host_with_other_entropy() {
    for (asked, made) in Phrase::ALL.into_iter().flat_map(|asked| Phrase::ALL.map(|made| (asked, made))) {
        let (mut life, mut desk) = (Life::in_channel(), Desk::new());
        desk.supply = match made {
            Phrase::Words12 => |_, _| ENTROPY[..16].to_vec(),
            Phrase::Words15 => |_, _| ENTROPY[..20].to_vec(),
            Phrase::Words18 => |_, _| ENTROPY[..24].to_vec(),
            Phrase::Words21 => |_, _| ENTROPY[..28].to_vec(),
            Phrase::Words24 => |_, _| ENTROPY.to_vec(),
        };
        let before = life.card.clone();
        let command = ChannelCommand::generate_mnemonic(asked);
        let answer = exchange(&mut life.terminal, &mut life.card, &mut desk, &command);
        if asked == made {
            assert_eq!(answer.expect("an answer").data().len(), asked.words_bytes());
        } else {
            let refused = ServeError::Refused(Refusal::BadSupply);
            assert_eq!(answer.err(), Some(ExchangeError::NotCarried(refused)), "{made:?} for {asked:?}");
            assert_eq!((life.card, desk.take_notes()), (before, vec![format!("mnemonic {asked:?}")]));
        }
    }
}

/// ASK names kind 10 and hands out no bytes, for each phrase; ANSWER takes a supply of that length alone, and any bytes in it.
#[test]
fn what_is_asked_and_taken() {
    for phrase in Phrase::ALL {
        let mut life = Life::in_channel();
        let command = life.seal(GENERATE_MNEMONIC, phrase.checksum_bits(), &[]);
        let mut buffer = [FILL; ANSWER_ROOM_BYTES];
        let asked = life.card.ask(&command, &mut buffer).expect("ASK");
        assert_eq!((asked.kind, asked.count), (SupplyKind::Mnemonic, 0));
        let before = life.card.clone();
        for bytes in (0..=2 * SUPPLY_MAX_BYTES).filter(|&bytes| bytes != phrase.entropy_bytes()) {
            let answered = life.card.answer(&command, &vec![0x01; bytes], &mut buffer);
            assert_eq!(answered, Err(Refusal::BadSupply), "{phrase:?}, {bytes} bytes");
        }
        assert_eq!((&life.card, buffer), (&before, [FILL; ANSWER_ROOM_BYTES]));
        // There is no flag: its first byte may be any.
        for first in [0x00, 0x01, 0x02, 0xFF] {
            let entropy = vec![first; phrase.entropy_bytes()];
            let answered = life.card.clone().answer(&command, &entropy, &mut buffer).expect("ANSWER");
            let sealed_bytes = MAC_BYTES + (phrase.words_bytes() + STATUS_BYTES + 1).next_multiple_of(16);
            assert_eq!(answered.count, sealed_bytes + STATUS_BYTES);
        }
    }
}

/// 6A86 for every other P1 and P2, before 6A80 for any data; neither reads a supply.
#[test]
fn what_is_looked_at_first() {
    let life = Life::in_channel();
    let told = |header: [u8; HEADER_BYTES], data: &[u8]| {
        let mut life = life.clone();
        let command = life.seal_with_header(header, data);
        let asked = life.card.ask(&command, &mut [0; ASK_ROOM_BYTES]).expect("ASK");
        let opened = {
            let response = life.plain(&command);
            let mut opened = [0; UNSEAL_ROOM_BYTES];
            let count = life.terminal.unseal(&response, &mut opened).expect("UNSEAL");
            opened[..count].to_vec()
        };
        (asked.kind, StatusWord::of(&opened).expect("two bytes"))
    };
    for p1 in 0..=255 {
        let (is_phrase, data) = (Phrase::from_checksum_bits(p1).is_some(), &[0x00][..]);
        let (without, with) = match is_phrase {
            true => ((SupplyKind::Mnemonic, StatusWord::SUCCESS), StatusWord::WRONG_DATA),
            false => ((SupplyKind::None, StatusWord::WRONG_PARAMETERS), StatusWord::WRONG_PARAMETERS),
        };
        assert_eq!(told(card_header(GENERATE_MNEMONIC, p1), &[]), without, "P1 {p1:02X}");
        assert_eq!(
            told(card_header(GENERATE_MNEMONIC, p1), data),
            (SupplyKind::None, with),
            "P1 {p1:02X}"
        );
    }
    for p2 in 1..=255 {
        for data in [&[][..], &[0x00]] {
            let header = [CLASS_CARD, GENERATE_MNEMONIC, P1_MNEMONIC_12_WORDS, p2];
            assert_eq!(told(header, data), (SupplyKind::None, StatusWord::WRONG_PARAMETERS), "P2 {p2:02X}");
        }
    }
    for data_bytes in 1..=DATA_MAX_BYTES {
        let header = card_header(GENERATE_MNEMONIC, P1_MNEMONIC_24_WORDS);
        let data = vec![0x5E; data_bytes];
        assert_eq!(
            told(header, &data),
            (SupplyKind::None, StatusWord::WRONG_DATA),
            "{data_bytes} bytes"
        );
    }
}

/// Before INIT the instruction is unknown; without a channel it is refused, and one that is not sealed ends the channel.
#[test]
fn without_a_channel() {
    let bare = card_header(GENERATE_MNEMONIC, P1_MNEMONIC_12_WORDS);
    assert_eq!(Life::fresh().plain(&bare), [0x6D, 0x00]);
    assert_eq!(Life::initialised().plain(&bare), [0x69, 0x85]);
    let mut life = Life::in_channel();
    assert_eq!(life.plain(&bare), [0x69, 0x82]);
    assert_eq!(life.card.stage(), Some(Stage::Closed));
    assert_eq!(life.plain(&bare), [0x69, 0x85]);
    life.open();
    assert_eq!(life.plain(&bare), [0x69, 0x85]);
    assert_eq!(life.card.stage(), Some(Stage::Closed));
}

/// Sizes by P1, and what is shown of entropy: its length.
#[test]
fn sizes_and_names() {
    for bits in 0..=255 {
        let phrase = Phrase::from_checksum_bits(bits);
        assert_eq!(phrase.is_some(), (4..=8).contains(&bits));
        assert_eq!(phrase.map(Phrase::checksum_bits), phrase.map(|_| bits));
        assert_eq!(phrase.map(Phrase::entropy_bytes), phrase.map(|_| 4 * usize::from(bits)));
        assert_eq!(phrase.map(Phrase::words), phrase.map(|_| 3 * usize::from(bits)));
        assert_eq!(phrase.map(Phrase::words_bytes), phrase.map(|_| 6 * usize::from(bits)));
    }
    let shown = Phrase::ALL.map(|phrase| {
        let words = in_bytes(&word_numbers(&ENTROPY[..phrase.entropy_bytes()]));
        format!("{:?}", entropy(&words).expect("entropy"))
    });
    assert_eq!(shown, [16, 20, 24, 28, 32].map(|bytes| format!("Entropy {{ bytes: {bytes}, .. }}")));
}
