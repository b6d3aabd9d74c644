//! One command over the channel, from ASK to the opened answer, for the directed tests. Lengths are in bytes.

use crate::both::{hex, Both};
use crate::host::room;
use crate::requests::Request;
use outside::ciphers::plain::BLOCK_BYTES;
use outside::model::card::Card;
use outside::model::engine::*;
use outside::model::message::{seal_command, HEADER_BYTES};
use outside::model::status::NOT_REFUSED;
use outside::random::Random;

/// What came of a command: ASK's kind, what ANSWER gave, the opened answer where it is sealed, and the next card.
pub struct Got {
    pub kind: u8,
    pub answered: Answered,
    pub opened: Vec<u8>,
    pub next: Card,
}

pub fn sealed(card: &Card, request: &Request) -> Vec<u8> {
    seal_command(&mut card.session.clone(), request.header, &request.data)
}

/// The request sealed for this card, and its answer.
pub fn send(both: &mut Both, random: &mut Random, card: &Card, request: &Request, supply: &[u8]) -> Got {
    let command = sealed(card, request);
    let asked = both.ask(card, &command, &mut room(random, ASK_ROOM_BYTES));
    let mut next = *card;
    let mut response = room(random, ANSWER_ROOM_BYTES);
    let answered = both.answer(&mut next, &command, supply, &mut response);
    let mut opened = Vec::new();
    if answered.sealed {
        let mut session = card.session;
        session.iv.copy_from_slice(&command[HEADER_BYTES + 1..][..BLOCK_BYTES]);
        opened = room(random, UNSEAL_ROOM_BYTES);
        let told = both.unseal(&mut session, &response[..answered.told.count], &mut opened);
        opened.truncate(told.count);
        if told.refusal != NOT_REFUSED || session != next.session {
            println!("THE ANSWER to {} does not open, or the two ends do not agree", hex(&command));
            std::process::exit(1);
        }
    }
    Got {
        kind: asked.kind,
        answered,
        opened,
        next,
    }
}

/// A plain command and its whole answer; the card is the next one then.
pub fn send_plain(both: &mut Both, random: &mut Random, card: &mut Card, command: &[u8], supply: &[u8]) -> (Answered, Vec<u8>) {
    let mut response = room(random, ANSWER_ROOM_BYTES);
    let answered = both.answer(card, command, supply, &mut response);
    response.truncate(answered.told.count);
    (answered, response)
}

/// The card and no other change than the channel's IV.
pub fn only_iv_moved(before: &Card, after: &Card) -> bool {
    let mut wanted = *before;
    wanted.session.iv = after.session.iv;
    *after == wanted && after.session.iv != before.session.iv
}
