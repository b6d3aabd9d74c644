//! Commands that are served by a host and exchanged over the channel: what the host is asked, in which order, and what becomes of the card where
//! something fails.

#[path = "common/desk.rs"]
mod desk;

mod common;

use common::*;
use desk::Desk;
use treadlewisp::*;

/// A card in the channel, and its host.
fn in_channel() -> (Life, Desk) {
    (Life::in_channel(), Desk::new())
}

fn send(life: &mut Life, desk: &mut Desk, command: &ChannelCommand) -> Result<Answer, ExchangeError<ServeError<&'static str>>> {
    exchange(&mut life.terminal, &mut life.card, desk, command)
}

/// The notes of a command that has to succeed.
fn notes(life: &mut Life, desk: &mut Desk, command: &ChannelCommand) -> Vec<String> {
    let answer = send(life, desk, command).expect("an answer");
    assert_eq!(answer.status(), StatusWord::SUCCESS, "{command:?}");
    desk.take_notes()
}

/// Plain commands: the supply is made, then the record stored, once for each answer.
#[test]
fn from_fresh_to_a_channel() {
    let (mut card, mut desk) = (Card::fresh(&UID, &POINT), Desk::new());
    let mut serve = |command: PlainCommand| {
        let answer = card.serve(&mut desk, command.bytes()).expect("an answer");
        assert!(card.is_sound());
        (answer.bytes().to_vec(), desk.take_notes())
    };
    let (select, noted) = serve(PlainCommand::select());
    assert_eq!(select, [&[0x80, 65], &POINT[..], &[0x90, 0x00]].concat());
    assert_eq!(noted, ["store"]);
    let init = PlainCommand::new(&[0x80, command::INIT, 0, 0], &init_command()[5..]).expect("INIT");
    assert_eq!(serve(init), (vec![0x90, 0x00], vec!["init".into(), "store".into()]));
    let (first, noted) = serve(PlainCommand::pair_first(&CLIENT_CHALLENGE));
    assert_eq!((first.len(), noted), (66, vec!["pair first 15".into(), "store".into()]));
    let (last, noted) = serve(PlainCommand::pair_final(&client_cryptogram()));
    assert_eq!((last[0], noted), (0, vec!["pair final".into(), "store".into()]));
    let (open, noted) = serve(PlainCommand::open(0, &POINT));
    assert_eq!((open.len(), noted), (50, vec!["open 0".into(), "store".into()]));
    let (wrong, noted) = serve(PlainCommand::open(1, &POINT));
    assert_eq!((wrong, noted), (vec![0x6A, 0x86], vec!["store".into()]));
}

/// What the host gets with each kind of supply, and that it stores after it.
#[test]
fn what_the_host_is_asked() {
    let (mut life, mut desk) = in_channel();
    let path = Path::new(&[44 + HARDENED, 7]).expect("a path");
    let chat = Path::from_bytes(&command::EIP1581_PATH).expect("a path");
    let (key, chain) = ([0x21; KEY_BYTES], [0x22; KEY_BYTES]);
    let (both, public) = (ExportedKeys::PrivateAndPublic, ExportedKeys::Public);
    let load = |key: LoadedKey| ChannelCommand::load(&key);
    let extended = |public_key| LoadedKey::Extended {
        private_key: &key,
        chain_code: &chain,
        public_key,
    };
    let plain = |public_key| LoadedKey::Plain {
        private_key: &key,
        public_key,
    };
    let asked = [
        (ChannelCommand::verify(PIN), ""),
        (load(plain(None)), "plain 33 None"),
        (load(plain(Some(&POINT))), "plain 33 Some(4)"),
        (ChannelCommand::sign(&[0x5F; HASH_BYTES]), "sign 95 by []"),
        (load(extended(None)), "extended 33 34 None"),
        (load(extended(Some(&POINT))), "extended 33 34 Some(4)"),
        (load(LoadedKey::Seed(&[0x5E; SEED_BYTES])), "seed 94"),
        (ChannelCommand::derive(&path), "derive [\"8000002C\", \"00000007\"]"),
        (ChannelCommand::sign(&[0x5F; HASH_BYTES]), "sign 95 by [\"8000002C\", \"00000007\"]"),
        (ChannelCommand::export_current(public), "export [\"8000002C\", \"00000007\"] Public"),
        (
            ChannelCommand::export(&chat, both),
            "export [\"8000002B\", \"8000003C\", \"8000062D\"] PrivateAndPublic",
        ),
        (
            ChannelCommand::export_and_make_current(&chat, public),
            "export [\"8000002B\", \"8000003C\", \"8000062D\"] Public",
        ),
        (ChannelCommand::remove(), ""),
        (ChannelCommand::generate_mnemonic(Phrase::Words12), "mnemonic Words12"),
        (ChannelCommand::generate_mnemonic(Phrase::Words24), "mnemonic Words24"),
    ];
    for (command, note) in asked {
        let expected: Vec<&str> = [note, "store"].into_iter().filter(|note| !note.is_empty()).collect();
        assert_eq!(notes(&mut life, &mut desk, &command), expected, "{command:?}");
    }
    assert_eq!(life.card.key_kind(), Some(KeyKind::None));
}

/// A wrong PIN has lost its try in the stored record when its answer is there; a host that cannot store gives no answer, and ends the card.
#[test]
fn a_lost_try_is_stored_before_the_answer() {
    let (mut life, mut desk) = in_channel();
    let wrong = ChannelCommand::verify(WRONG_PIN);
    assert_eq!(
        send(&mut life, &mut desk, &wrong).expect("an answer").status(),
        StatusWord::TRIES_LEFT_2
    );
    assert_eq!(Card::read(&desk.record).expect("READ").pin_tries(), 2);

    desk.fails_to_store = true;
    let failed = send(&mut life, &mut desk, &wrong).err();
    assert_eq!(
        failed,
        Some(ExchangeError::NotCarried(ServeError::NotStored("no room on the disk")))
    );
    assert!(!life.card.is_sound());
    assert_eq!(life.card.to_bytes(), [0xFF; CARD_BYTES]);
    desk.fails_to_store = false;
    let select = PlainCommand::select();
    let refused = life.card.serve(&mut desk, select.bytes()).err();
    assert_eq!(refused, Some(ServeError::Refused(Refusal::Unsound)));

    // It goes on from what is stored, with the tries that are stored, and without a channel.
    let mut card = Card::read(&desk.record).expect("READ");
    assert_eq!((card.pin_tries(), card.stage()), (2, Some(Stage::Closed)));
    assert_eq!(
        card.serve(&mut desk, select.bytes()).expect("an answer").status(),
        StatusWord::SUCCESS
    );
}

/// A host that cannot make the supply: no answer, nothing is stored, and the card is as it was.
#[test]
fn a_supply_that_is_not_made() {
    let (mut life, mut desk) = in_channel();
    notes(&mut life, &mut desk, &ChannelCommand::verify(PIN));
    let (before, record) = (life.card.clone(), desk.record.clone());
    desk.fails_to_supply = true;
    let load = ChannelCommand::load(&LoadedKey::Seed(&[0x5E; SEED_BYTES]));
    let failed = send(&mut life, &mut desk, &load).err();
    assert_eq!(
        failed,
        Some(ExchangeError::NotCarried(ServeError::NotSupplied("no random numbers")))
    );
    assert_eq!(desk.take_notes(), ["seed 94"]);
    assert_eq!((&life.card, &desk.record), (&before, &record));

    // The terminal's IV has moved on, the card's has not: the next command does not open.
    let next = send(&mut life, &mut desk, &ChannelCommand::status_tries()).err();
    assert_eq!(next, Some(ExchangeError::Plain(StatusWord::SECURITY_NOT_MET)));
    assert_eq!((life.card.stage(), life.card.is_verified()), (Some(Stage::Closed), false));
}

/// A supply of another kind is refused, whatever its length: the card is as it was, and nothing is stored.
#[test]
fn a_supply_of_another_kind() {
    for kind in [SupplyKind::Init, SupplyKind::Open, SupplyKind::Derive, SupplyKind::None] {
        let (mut life, mut desk) = in_channel();
        notes(&mut life, &mut desk, &ChannelCommand::verify(PIN));
        let before = life.card.clone();
        let load = ChannelCommand::load(&LoadedKey::Seed(&[0x5E; SEED_BYTES]));
        let sealed = load.seal(&mut life.terminal).expect("SEAL");
        desk.makes_only = Some(kind);
        let refused = life.card.serve(&mut desk, sealed.bytes()).err();
        assert_eq!(refused, Some(ServeError::Refused(Refusal::BadSupply)), "{kind}");
        assert_eq!(desk.take_notes(), ["seed 94"]);
        assert_eq!(life.card, before);

        // The same command with the right supply.
        desk.makes_only = None;
        let answer = life.card.serve(&mut desk, sealed.bytes()).expect("an answer");
        let mut opened = [0; UNSEAL_ROOM_BYTES];
        assert_eq!(life.terminal.unseal(answer.bytes(), &mut opened), Ok(KEY_BYTES + STATUS_BYTES));
        assert_eq!(life.card.key_uid(), &key_uid());
    }
}

/// The same where the length is right: MUTUAL's supply and both of PAIR's have 32 bytes each.
#[test]
fn a_supply_of_another_kind_and_the_same_length() {
    let first = PlainCommand::pair_first(&CLIENT_CHALLENGE);
    for kind in [SupplyKind::Mutual, SupplyKind::PairFinal] {
        let (mut card, mut desk) = (Life::initialised().card, Desk::new());
        let before = card.clone();
        desk.makes_only = Some(kind);
        let refused = card.serve(&mut desk, first.bytes()).err();
        assert_eq!(refused, Some(ServeError::Refused(Refusal::BadSupply)), "{kind}");
        assert_eq!((desk.take_notes(), &card), (vec!["pair first 15".to_string()], &before));
    }
}

/// An unsound card: no supply is made, nothing is stored, and no byte changes.
#[test]
fn a_card_that_is_not_sound() {
    let mut desk = Desk::new();
    let mut card = Card::from_bytes(&[0x02; CARD_BYTES]);
    let refused = card.serve(&mut desk, &init_command()).err();
    assert_eq!(refused, Some(ServeError::Refused(Refusal::Unsound)));
    assert_eq!((card.to_bytes(), desk.take_notes().len()), ([0x02; CARD_BYTES], 0));
}

/// A terminal that is out of step: it has lost an answer, or the card its power.
#[test]
fn a_terminal_out_of_step() {
    let (mut life, mut desk) = in_channel();
    let status = ChannelCommand::status_tries();
    let lost = life.terminal.exchange(&status, |sealed| {
        let answer = life.card.serve(&mut desk, sealed).expect("an answer");
        assert_eq!(answer.bytes().len(), 34);
        Err("out of reach")
    });
    assert_eq!(lost.err(), Some(ExchangeError::NotCarried("out of reach")));
    let next = send(&mut life, &mut desk, &status).err();
    assert_eq!(next, Some(ExchangeError::Plain(StatusWord::SECURITY_NOT_MET)));
    let closed = send(&mut life, &mut desk, &status).err();
    assert_eq!(closed, Some(ExchangeError::Plain(StatusWord::CONDITIONS_NOT_MET)));

    life.open();
    life.mutual();
    assert_eq!(send(&mut life, &mut desk, &status).expect("an answer").data()[4], PIN_TRIES);
    life.card.reset().expect("RESET");
    let reset = send(&mut life, &mut desk, &status).err();
    assert_eq!(reset, Some(ExchangeError::Plain(StatusWord::CONDITIONS_NOT_MET)));
}

/// An answer that was changed on its way, or is that to another command.
#[test]
fn an_answer_that_is_not_genuine() {
    let (mut life, mut desk) = in_channel();
    let status = ChannelCommand::status_tries();
    let mut earlier = Vec::new();
    let answer = life.terminal.exchange(&status, |sealed| {
        let answer = life.card.serve(&mut desk, sealed)?;
        earlier = answer.bytes().to_vec();
        Ok::<_, ServeError<&str>>(answer)
    });
    assert_eq!(answer.expect("an answer").data().len(), 11);
    for at in 0..earlier.len() {
        let mut session = life.terminal.clone();
        let mut card = life.card.clone();
        let changed = session.exchange(&status, |sealed| {
            let mut bytes = card.serve(&mut desk, sealed).expect("an answer").bytes().to_vec();
            bytes[at] ^= 0x01;
            Answer::from_bytes(&bytes).ok_or(())
        });
        assert_eq!(changed.err(), Some(ExchangeError::NotGenuine), "byte {at}");
    }
    let replayed = life.terminal.exchange(&status, |_| Answer::from_bytes(&earlier).ok_or(()));
    assert_eq!(replayed.err(), Some(ExchangeError::NotGenuine));
}

#[test]
fn errors_in_words() {
    use std::error::Error;
    let stored: ServeError<Refusal> = ServeError::NotStored(Refusal::NotRecord);
    assert_eq!(
        stored.to_string(),
        "the record was not stored: refusal 8: the bytes are no card's record"
    );
    assert!(stored.source().is_some());
    let plain: ExchangeError<ServeError<Refusal>> = ExchangeError::Plain(StatusWord::SECURITY_NOT_MET);
    assert_eq!(
        plain.to_string(),
        "the card answered outside the channel: 6982 (security status not met)"
    );
    assert!(plain.source().is_none());
    let carried = ExchangeError::NotCarried(ServeError::<Refusal>::from(Refusal::BadSupply));
    assert_eq!(
        carried.to_string(),
        "no answer came: refusal 3: the supply's length or its flag byte is wrong"
    );
}
