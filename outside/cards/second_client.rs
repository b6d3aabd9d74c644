//! A second client must not inherit the PIN (RULES 2.3 and 6.2). On cards with a verified PIN: every way to lose the channel, each command
//! that keeps it, and what is left, in the card and for the client that comes next; and cards whose PIN is verified outside stage 2, which
//! are not sound. Lengths are in bytes.

use crate::both::{hex, Both};
use crate::directed::ready_card;
use crate::exports::request as export;
use crate::host::{room, supply_for, supply_of, Way};
use crate::may_occur::{every_supplied, Situation, Supplied};
use crate::paths::{path_at, Place};
use crate::requests::{is_sealed_kind, right, Request};
use crate::standing::{standing_of, Standing};
use crate::states::{random_session, random_tap_data};
use crate::templates::key_template;
use crate::word_numbers::EVERY_CHECKSUM_BITS;
use outside::ciphers::plain::BLOCK_BYTES;
use outside::model::card::*;
use outside::model::commands::{Name, FOR_OPEN, INSTRUCTIONS};
use outside::model::engine::*;
use outside::model::message::{command_head, encrypt, field_of, seal_command, HEADER_BYTES};
use outside::model::status::*;
use outside::random::choice::{array, digits};
use outside::random::Random;

const PLAIN: bool = false;
const SEALED: bool = true;

/// A call on a card with a verified PIN: what it has to give, and how it leaves the card.
struct Trial {
    card: Card,
    command: Vec<u8>,
    supply: Way,
    status: u16,
    sealed: bool,
    left: Standing,
}

fn fail(what: &str, command: &[u8]) -> ! {
    println!("THE SECOND CLIENT: {what}: {}", hex(command));
    std::process::exit(1);
}

pub fn run(both: &mut Both, seed: u64) {
    both.walk = "the second client".to_string();
    let mut random = Random::new(seed.rotate_left(7));
    let random = &mut random;
    let mut trials = losing(random);
    trials.extend(keeping_plain(random));
    trials.extend(keeping_sealed(random));
    for trial in trials {
        meet(both, random, trial);
    }
    refused(both, random);
    restarted(both, random);
    not_sound(both, random);
}

fn verified_card(random: &mut Random) -> Card {
    ready_card(random, Situation::Authenticated)
}

/// The index of the slot that is filled, or of a free one.
fn slot(card: &Card, filled: u8) -> u8 {
    card.slots.iter().position(|slot| slot.filled == filled).expect("a slot") as u8
}

/// The command as it is sent to this card: sealed for its session where it comes sealed.
fn sent(card: &Card, request: &Request) -> Vec<u8> {
    if is_sealed_kind(request.name) {
        seal_command(&mut card.session.clone(), request.header, &request.data)
    } else {
        request.plain()
    }
}

fn point(random: &mut Random) -> Vec<u8> {
    [&[0x04], &random.bytes(POINT_BYTES - 1)[..]].concat()
}

/// Every way to lose a channel but RESET and READ.
fn losing(random: &mut Random) -> Vec<Trial> {
    let mut trials = losing_plain(random);
    for name in INSTRUCTIONS.map(|known| known.0).into_iter().filter(|&name| is_sealed_kind(name)) {
        let card = verified_card(random);
        for command in not_opening(random, &card, name) {
            trials.push(Trial {
                card,
                command,
                supply: Way::Right,
                status: SECURITY_NOT_SATISFIED,
                sealed: PLAIN,
                left: Standing::Closed,
            });
        }
    }
    trials
}

/// SELECT on success, and OPEN whatever comes of it once its form is right.
fn losing_plain(random: &mut Random) -> Vec<Trial> {
    let card = verified_card(random);
    let (filled, free) = (slot(&card, YES), slot(&card, NO));
    let open = |p1, data: &[u8]| Request::new(Name::Open, p1, data);
    let point = point(random);
    let mut wrong_p2 = open(filled, &point);
    wrong_p2.header[3] = 0x01;
    let closed = [
        (right(random, &card, Name::Select, &[0; 32]), Way::Right, SUCCESS),
        (open(filled, &point), Way::Refusing, WRONG_DATA),
        (open(filled, &[]), Way::Right, WRONG_DATA),
        (open(filled, &point[..POINT_BYTES - 1]), Way::Right, WRONG_DATA),
        (open(filled, &[&point[..], &[0]].concat()), Way::Right, WRONG_DATA),
        (open(filled, &[&[0x05], &point[1..]].concat()), Way::Right, WRONG_DATA),
        (open(free, &point), Way::Right, WRONG_P1_P2),
        (open(SLOTS as u8, &point), Way::Right, WRONG_P1_P2),
        (open(0xff, &point), Way::Right, WRONG_P1_P2),
        (wrong_p2, Way::Right, WRONG_P1_P2),
    ];
    let trial = |(request, supply, status): (Request, Way, u16), left| Trial {
        card,
        command: request.plain(),
        supply,
        status,
        sealed: PLAIN,
        left,
    };
    let mut trials = vec![trial((open(filled, &point), Way::Right, SUCCESS), Standing::Opened)];
    trials.extend(closed.map(|call| trial(call, Standing::Closed)));
    trials
}

/// Commands that do not open: bare, of a wrong length, forged, of another session, and with a wrong padding under the right MAC.
fn not_opening(random: &mut Random, card: &Card, name: Name) -> Vec<Vec<u8>> {
    let request = right(random, card, name, &[0; 32]);
    let header = request.header;
    let sent = sent(card, &request);
    let with_field = |field: &[u8]| [&header[..], &[field.len() as u8], field].concat();
    let flipped = |at: usize| {
        let mut forged = sent.clone();
        forged[at] ^= 0x01;
        forged
    };
    let field = &sent[HEADER_BYTES + 1..];
    let no_padding = encrypt(&card.session.enc_key, &card.session.iv, &[0; BLOCK_BYTES]);
    let head = command_head(header, 2 * BLOCK_BYTES);
    let wrong_padding = field_of(&mut card.session.clone(), &head, &no_padding);
    vec![
        header.to_vec(),
        [&header[..], &[0x00]].concat(),
        with_field(&field[..BLOCK_BYTES]),
        with_field(&field[..field.len() - 1]),
        with_field(&[field, &[0]].concat()),
        with_field(&random.bytes(255)),
        flipped(HEADER_BYTES + 1),
        flipped(sent.len() - 1),
        flipped(2),
        flipped(3),
        seal_command(&mut random_session(random), header, &request.data),
        with_field(&wrong_padding),
    ]
}

/// Commands that come plain and keep channel and verification: all that fails before OPEN closes, SELECT's errors, and PAIR.
fn keeping_plain(random: &mut Random) -> Vec<Trial> {
    let card = verified_card(random);
    let cryptogram = random.bytes(CRYPTOGRAM_BYTES);
    let pair = |p1, p2| [&[0x80, 0x12, p1, p2, 32], &cryptogram[..]].concat();
    let select = |p1, p2, name: &[u8]| [&[0x00, 0xa4, p1, p2, name.len() as u8], name].concat();
    let mut calls = vec![
        (vec![], WRONG_LENGTH),
        (vec![0x80], WRONG_LENGTH),
        (vec![0x80, 0xff], WRONG_LENGTH),
        (vec![0x00, 0x10, 0x00, 0x00], UNKNOWN_CLASS),
        (vec![0x84, 0x20, 0x00, 0x00], UNKNOWN_CLASS),
        (vec![0x80, 0xff, 0x00, 0x00], UNKNOWN_INSTRUCTION),
        (vec![0x80, 0xa4, 0x04, 0x00], UNKNOWN_INSTRUCTION),
        (vec![0x80, 0xfe, 0x00, 0x00], UNKNOWN_INSTRUCTION),
        (vec![0x00, 0xa4, 0x04, 0x00], NOT_FOUND),
        (select(0x04, 0x00, b"StatusWalletApq"), NOT_FOUND),
        (select(0x00, 0x00, b"StatusWalletApp"), WRONG_P1_P2),
        (select(0x04, 0x01, b"StatusWalletApp"), WRONG_P1_P2),
        (pair(0x00, 0x00), CONDITIONS_NOT_SATISFIED),
        (vec![0x80, 0x12, 0x00, 0x00], CONDITIONS_NOT_SATISFIED),
        (pair(0x01, 0x00), WRONG_P1_P2),
        (pair(0x02, 0x00), WRONG_P1_P2),
        (pair(0x00, 0x01), WRONG_P1_P2),
    ];
    for (name, instruction) in INSTRUCTIONS {
        let class = if name == Name::Select { 0x00 } else { 0x80 };
        calls.push((vec![class, instruction], WRONG_LENGTH));
        calls.push((vec![class, instruction, 0x00], WRONG_LENGTH));
        calls.push((vec![class, instruction, 0x00, 0x00, 0x00, 0x00], WRONG_LENGTH));
        calls.push((vec![class, instruction, 0x00, 0x00, 0x02, 0x00], WRONG_LENGTH));
    }
    let trial = |(command, status)| Trial {
        card,
        command,
        supply: Way::Right,
        status,
        sealed: PLAIN,
        left: Standing::Verified,
    };
    calls.into_iter().map(trial).collect()
}

/// A request for each command, and each choice of P1, that a card with a verified PIN and an extended key says 9000 to.
fn succeeding(random: &mut Random, card: &Card) -> Vec<Request> {
    let path = random.bytes(2 * COMPONENT_BYTES);
    let mut requests = vec![Request::new(Name::Unpair, slot(card, NO), &[])];
    requests.extend(for_the_pin(random, card));
    requests.extend([
        Request::new(Name::Status, 0x00, &[]),
        Request::new(Name::Status, 0x01, &[]),
        Request::new(Name::Verify, 0x00, &card.pin),
        Request::new(Name::Derive, 0x00, &path),
        Request::new(Name::Sign, 0x00, &random.bytes(32)),
    ]);
    requests.extend(exports(random));
    requests.extend(phrases());
    requests
}

/// GENERATE MNEMONIC with each P1, which needs the channel alone.
fn phrases() -> [Request; 5] {
    EVERY_CHECKSUM_BITS.map(|p1| Request::new(Name::Mnemonic, p1, &[]))
}

/// EXPORT of the current path and of a given one, public, and of one from which the private part goes out.
fn exports(random: &mut Random) -> [Request; 4] {
    let elsewhere = random.bytes(COMPONENT_BYTES);
    let inside = path_at(random, Place::Below);
    [
        export(0x00, 0x01, &[]),
        export(0x01, 0x01, &elsewhere),
        export(0x01, 0x00, &inside),
        export(0x02, 0x00, &inside),
    ]
}

/// Of these, the ones that need a verified PIN in every state.
fn for_the_pin(random: &mut Random, card: &Card) -> Vec<Request> {
    let filled = card.slots.iter().position(|slot| slot.filled == YES).unwrap_or(0) as u8;
    vec![
        Request::new(Name::Unpair, filled, &[]),
        Request::new(Name::Change, 0x00, &digits::<PIN_BYTES>(random)),
        Request::new(Name::Change, 0x01, &digits::<PUK_BYTES>(random)),
        Request::new(Name::Change, 0x02, &random.bytes(SECRET_BYTES)),
        Request::new(Name::Load, 0x01, &key_template(random, false)),
        Request::new(Name::Load, 0x02, &key_template(random, true)),
        Request::new(Name::Load, 0x03, &random.bytes(64)),
        Request::new(Name::Remove, 0x00, &[]),
        Request::new(Name::SetPinlessPath, 0x00, &random.bytes(COMPONENT_BYTES)),
        Request::new(Name::SetNdef, 0x00, &random_tap_data(random)),
    ]
}

/// Sealed commands: all keep the channel, successes and errors, and only a wrong PIN drops verification.
fn keeping_sealed(random: &mut Random) -> Vec<Trial> {
    let card = verified_card(random);
    let mut keyless = card;
    (keyless.key_kind, keyless.key_uid) = (NO_KEY, [0; KEY_UID_BYTES]);
    (keyless.current_path, keyless.pinless_path) = (Path::EMPTY, Path::EMPTY);
    let mutual = Request::new(Name::Mutual, 0x00, &random.bytes(32));
    let unblock = Request::new(Name::Unblock, 0x00, &[&card.puk[..], &digits::<PIN_BYTES>(random)].concat());
    let mut requests = succeeding(random, &card);
    let mut trials = Vec::new();
    let mut add = |card, request: &Request, supply, status, left| {
        trials.push(Trial {
            card,
            command: sent(&card, request),
            supply,
            status,
            sealed: SEALED,
            left,
        });
    };
    for request in &requests {
        add(card, request, Way::Right, SUCCESS, Standing::Verified);
        if matches!(request.name, Name::Load | Name::Derive | Name::Export) {
            let status = if request.name == Name::Load { WRONG_DATA } else { DATA_INVALID };
            add(card, request, Way::Refusing, status, Standing::Verified);
        }
        if matches!(request.name, Name::Derive | Name::Sign | Name::Export) {
            add(keyless, request, Way::Right, CONDITIONS_NOT_SATISFIED, Standing::Verified);
        }
        if matches!(
            request.name,
            Name::Change | Name::Load | Name::Derive | Name::SetPinlessPath | Name::Sign | Name::Export | Name::SetNdef | Name::Mnemonic
        ) {
            let wrong = Request {
                data: vec![0x30; 3],
                ..*request
            };
            add(card, &wrong, Way::Right, WRONG_DATA, Standing::Verified);
        }
    }
    let elsewhere = [export(0x00, 0x00, &[]), export(0x02, 0x00, &path_at(random, Place::Beside))];
    for request in &elsewhere {
        add(card, request, Way::Right, CONDITIONS_NOT_SATISFIED, Standing::Verified);
    }
    for request in [&mutual, &unblock] {
        add(card, request, Way::Right, CONDITIONS_NOT_SATISFIED, Standing::Verified);
    }
    requests.extend([mutual, unblock]);
    for request in &mut requests {
        request.header[3] += if request.name == Name::Export { 0x02 } else { 0x01 };
        add(card, request, Way::Right, WRONG_P1_P2, Standing::Verified);
    }
    for wrong in [&[][..], &card.pin[1..], &[&card.pin[..], b"0"].concat()] {
        let wrong = Request::new(Name::Verify, 0x00, wrong);
        add(card, &wrong, Way::Right, WRONG_ENTRY + 2, Standing::Authenticated);
    }
    trials
}

/// The call, how it leaves the card, and what a client can do then.
fn meet(both: &mut Both, random: &mut Random, trial: Trial) {
    let Trial { mut card, command, .. } = trial;
    let supply = supply_for(random, &card, &command, &[0; 32], trial.supply);
    let answered = both.answer(&mut card, &command, &supply, &mut room(random, ANSWER_ROOM_BYTES));
    let stands = standing_of(&card);
    if (answered.status, answered.sealed, stands) != (Some(trial.status), trial.sealed, Some(trial.left)) {
        let wanted = format!("{:x}, sealed {}, and then {:?}", trial.status, trial.sealed, trial.left);
        fail(&format!("wanted {wanted}, got {answered:x?} and then {stands:?}"), &command);
    }
    match trial.left {
        Standing::Verified => pin_commands(both, random, &card, SUCCESS),
        Standing::Authenticated => pin_commands(both, random, &card, CONDITIONS_NOT_SATISFIED),
        Standing::Closed | Standing::Opened => second_client(both, random, card),
    }
}

/// One command on a copy of the card, which has to answer so.
fn answers(both: &mut Both, random: &mut Random, card: &Card, request: &Request, status: u16) -> Card {
    let mut card = *card;
    let command = sent(&card, request);
    let supply = supply_for(random, &card, &command, &[0; 32], Way::Right);
    let answered = both.answer(&mut card, &command, &supply, &mut room(random, ANSWER_ROOM_BYTES));
    if answered.status != Some(status) {
        fail(
            &format!("{:?} gave {answered:x?} instead of {status:x}", request.name),
            &request.plain(),
        );
    }
    card
}

/// UNPAIR and another command that needs the PIN, on the card as it is: 9000 where the PIN is verified, else 6985.
fn pin_commands(both: &mut Both, random: &mut Random, card: &Card, status: u16) {
    let requests = for_the_pin(random, card);
    let other = 1 + random.below(requests.len() - 1);
    for request in [&requests[0], &requests[other]] {
        answers(both, random, card, request, status);
    }
}

/// A client opens a channel on this card, which another one left. It finds the PIN not verified: the PIN-less path is all that it can use
/// until it gives the PIN.
fn second_client(both: &mut Both, random: &mut Random, mut card: Card) {
    if card.stage == CLOSED {
        let open = Request::new(Name::Open, slot(&card, YES), &point(random));
        card = answers(both, random, &card, &open, SUCCESS);
    }
    let mutual = Request::new(Name::Mutual, 0x00, &random.bytes(32));
    card = answers(both, random, &card, &mutual, SUCCESS);
    pin_commands(both, random, &card, CONDITIONS_NOT_SATISFIED);
    let derive = Request::new(Name::Derive, 0x00, card.pinless_path.used());
    let sign = Request::new(Name::Sign, 0x00, &random.bytes(32));
    let mut no_path = card;
    no_path.pinless_path = Path::EMPTY;
    for request in [derive, sign] {
        answers(both, random, &card, &request, SUCCESS);
        answers(both, random, &no_path, &request, CONDITIONS_NOT_SATISFIED);
    }
    for request in &phrases() {
        answers(both, random, &card, request, SUCCESS);
    }
    let exports = exports(random);
    for request in &exports {
        answers(both, random, &card, request, CONDITIONS_NOT_SATISFIED);
    }
    let verify = Request::new(Name::Verify, 0x00, &card.pin);
    card = answers(both, random, &card, &verify, SUCCESS);
    pin_commands(both, random, &card, SUCCESS);
    for request in &exports {
        answers(both, random, &card, request, SUCCESS);
    }
}

/// A refusal takes back that OPEN or SELECT closed the channel.
fn refused(both: &mut Both, random: &mut Random) {
    let card = verified_card(random);
    let open = Request::new(Name::Open, slot(&card, YES), &point(random)).plain();
    let select = right(random, &card, Name::Select, &[0; 32]).plain();
    let is_right = |way: &Supplied| matches!(way, Supplied::Right | Supplied::No);
    let supplies = every_supplied(FOR_OPEN).into_iter().filter(|way| !is_right(way));
    let mut calls: Vec<_> = supplies
        .map(|way| (&open, supply_of(random, FOR_OPEN, &[0; 32], way), ANSWER_ROOM_BYTES, WRONG_SUPPLY))
        .collect();
    let supply = supply_of(random, FOR_OPEN, &[0; 32], Supplied::Right);
    calls.push((&open, supply, ANSWER_ROOM_BYTES - 1, SHORT_BUFFER));
    calls.push((&select, vec![], ANSWER_ROOM_BYTES - 1, SHORT_BUFFER));
    for (command, supply, room_bytes, refusal) in calls {
        let mut left = card;
        let answered = both.answer(&mut left, command, &supply, &mut random.bytes(room_bytes));
        if answered.told.refusal != refusal || left != card {
            fail(
                &format!("wanted refusal {refusal} and the card as it was, got {answered:x?}"),
                command,
            );
        }
        pin_commands(both, random, &left, SUCCESS);
    }
}

/// RESET, and READ of the card's record: the PIN is not verified, and the next client finds it so. The same after a client that never
/// gave the PIN.
fn restarted(both: &mut Both, random: &mut Random) {
    let card = verified_card(random);
    let mut reset = card;
    both.reset(&mut reset);
    let mut record = random.bytes(WRITE_ROOM_BYTES);
    let told = both.write(&card, &mut record);
    let (refusal, read) = both.read(&record[..told.count]);
    if refusal != NOT_REFUSED || read != reset || standing_of(&reset) != Some(Standing::Closed) {
        fail("RESET, and READ of the record", &record[..told.count]);
    }
    second_client(both, random, reset);
    let mut unverified = card;
    unverified.verified = NO;
    let open = Request::new(Name::Open, slot(&card, YES), &point(random));
    let opened = answers(both, random, &unverified, &open, SUCCESS);
    second_client(both, random, opened);
}

/// A verified PIN in stage 0 or 1, or with fewer than 3 tries, is refused with 1 by all that take a card; the same card without is sound.
fn not_sound(both: &mut Both, random: &mut Random) {
    let select = right(random, &Card::fresh([0; 16], [0; 65]), Name::Select, &[0; 32]).plain();
    for situation in [Situation::Closed, Situation::Pending, Situation::Opened, Situation::Authenticated] {
        for pin_tries in 0..=PIN_TRIES {
            let mut card = ready_card(random, situation);
            (card.verified, card.pin_tries) = (NO, pin_tries);
            let is_sound = both.sound(&card);
            card.verified = YES;
            let may_be = situation == Situation::Authenticated && pin_tries == PIN_TRIES;
            if !is_sound || both.sound(&card) != may_be {
                fail(&format!("soundness in {situation:?} with {pin_tries} tries"), &[]);
            }
            if !may_be {
                let mut given = card;
                let refusals = [
                    both.reset(&mut given),
                    both.ask(&given, &select, &mut random.bytes(ASK_ROOM_BYTES)).refusal,
                    both.answer(&mut given, &select, &[], &mut array::<ANSWER_ROOM_BYTES>(random))
                        .told
                        .refusal,
                    both.write(&given, &mut random.bytes(WRITE_ROOM_BYTES)).refusal,
                ];
                if refusals != [UNSOUND; 4] || given != card {
                    fail(&format!("refusals {refusals:?} in {situation:?} with {pin_tries} tries"), &select);
                }
            }
        }
    }
}
