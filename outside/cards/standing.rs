//! How a card stands: the stage of its channel and, in stage 2, whether the PIN is verified (RULES 2.3 and 6.2). What each answer leaves of
//! it is told here as a table, apart from the model, and every answer of a run is held to it: verification begins in stage 2 and ends where
//! stage 2 ends.

use crate::may_occur::{every_name, plain_words, sealed_words, Situation};
use outside::model::card::{Card, AUTHENTICATED, CLOSED, NO, OPENED, YES};
use outside::model::commands::Name;

#[derive(Clone, Copy, PartialEq, Eq, PartialOrd, Ord, Debug)]
pub enum Standing {
    /// Stage 0.
    Closed,
    /// Stage 1.
    Opened,
    /// Stage 2, the PIN not verified.
    Authenticated,
    /// Stage 2, the PIN verified.
    Verified,
}

/// How this card stands; none where no sound card stands so.
pub fn standing_of(card: &Card) -> Option<Standing> {
    match (card.stage, card.verified) {
        (CLOSED, NO) => Some(Standing::Closed),
        (OPENED, NO) => Some(Standing::Opened),
        (AUTHENTICATED, NO) => Some(Standing::Authenticated),
        (AUTHENTICATED, YES) => Some(Standing::Verified),
        _ => None,
    }
}

/// How a card stands after an answer to this command, by its status word and whether it was sealed.
pub fn standing_after(before: Standing, name: Option<Name>, status: u16, sealed: bool) -> Standing {
    use Standing::*;
    match (before, name, status) {
        // OPEN closes once its form is right; SELECT where it succeeds.
        (_, Some(Name::Open), 0x9000) => Opened,
        (_, Some(Name::Open), 0x6a80 | 0x6a86) | (_, Some(Name::Select), 0x9000) => Closed,
        // In stage 1 all but MUTUAL drops the channel, and MUTUAL's own errors do.
        (Opened, Some(Name::Mutual), 0x9000) => Authenticated,
        (Opened, Some(Name::Mutual), 0x6700) => Opened,
        (Opened, ..) => Closed,
        // In stage 2 a command that does not open.
        (Authenticated | Verified, _, 0x6982) if !sealed => Closed,
        (Authenticated | Verified, Some(Name::Verify | Name::Unblock), 0x9000) => Verified,
        // A wrong PIN.
        (Verified, Some(Name::Verify), 0x63c0..=0x63c2) => Authenticated,
        _ => before,
    }
}

/// How a card can stand before an answer and after it.
pub const PASSAGES: [(Standing, &[Standing]); 4] = {
    use Standing::*;
    [
        (Closed, &[Closed, Opened]),
        (Opened, &[Closed, Opened, Authenticated]),
        (Authenticated, &[Closed, Opened, Authenticated, Verified]),
        (Verified, &[Closed, Opened, Authenticated, Verified]),
    ]
};

/// An answer that a card with a verified PIN got: the command, the status word, and whether it was sealed.
pub type VerifiedRow = (Option<Name>, u16, bool);

/// Every answer that a card with a verified PIN can get.
pub fn every_verified_row() -> Vec<VerifiedRow> {
    let mut rows = Vec::new();
    for name in every_name() {
        let plain = plain_words(Situation::Authenticated, name).iter();
        rows.extend(plain.map(|&status| (name, status, false)));
        let sealed = sealed_words(Situation::Authenticated, name).iter();
        let sealed = sealed.filter(|&&status| can_be_verified(name, status));
        rows.extend(sealed.map(|&status| (name, status, true)));
    }
    rows
}

/// Whether a card with a verified PIN can get this sealed answer: it has 3 PIN tries, and nothing fails for want of a PIN.
fn can_be_verified(name: Option<Name>, status: u16) -> bool {
    match name {
        Some(Name::Verify) => !(0x63c0..=0x63c1).contains(&status),
        Some(Name::Unblock) => matches!(status, 0x6985 | 0x6a86),
        Some(Name::Unpair | Name::Change | Name::Load | Name::Remove | Name::SetPinlessPath | Name::SetNdef) => status != 0x6985,
        _ => true,
    }
}
