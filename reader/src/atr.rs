//! The answer to reset (ISO/IEC 7816-3): what the card says of itself at power-up. Lengths are in bytes.

/// The historical bytes (ISO/IEC 7816-4, 12.1.1): 80, fields in COMPACT-TLV follow; 5B, the card issuer's data, 11 bytes.
const HISTORICAL: [u8; 13] = *b"\x80\x5BTreadlewisp";
/// Before them: TS, direct convention; T0, TD1 follows and 13 historical bytes; TD1, the protocol is T=1 and no more interface bytes follow.
const HEAD: [u8; 3] = [0x3B, 0x80 | HISTORICAL.len() as u8, 0x01];

/// Length of the answer to reset: the head, the historical bytes, and the check byte TCK.
pub const ATR_BYTES: usize = HEAD.len() + HISTORICAL.len() + 1;

/// The answer to reset. T=1 alone is offered: a whole command goes to the card and a whole answer back, at most 255 bytes of data each way.
pub const ATR: [u8; ATR_BYTES] = {
    let mut atr = [0; ATR_BYTES];
    let mut at = 0;
    while at < ATR_BYTES - 1 {
        atr[at] = if at < HEAD.len() { HEAD[at] } else { HISTORICAL[at - HEAD.len()] };
        // TCK: all bytes from T0 on, TCK too, have the exclusive or 0.
        if at > 0 {
            atr[ATR_BYTES - 1] ^= atr[at];
        }
        at += 1;
    }
    atr
};
