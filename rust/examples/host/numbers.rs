//! The numbers of docs/INTEGRATION.md, 5.3, which were worked out by other programs. Both ends of this example share host/curve.rs and the
//! channel's keys of host/keycard.rs, so they would agree with each other on wrong ones too. Lengths are in bytes.

use treadlewisp::KEY_BYTES;

use crate::crypto::Secret;
use crate::curve::Curve;
use crate::keycard::{channel_keys, cryptogram, key_uid, pairing_key};
use crate::terminal::Outcome;

/// 32 bytes that rise by one.
fn rising(first: u8) -> [u8; KEY_BYTES] {
    let mut next = first..;
    [(); KEY_BYTES].map(|()| next.next().unwrap_or(0))
}

/// The bytes of hexadecimal digits.
pub fn bytes<const N: usize>(digits: &str) -> Outcome<[u8; N]> {
    let mut bytes = [0; N];
    for (at, byte) in bytes.iter_mut().enumerate() {
        *byte = u8::from_str_radix(digits.get(2 * at..2 * at + 2).ok_or("too short")?, 16)?;
    }
    Ok(bytes)
}

/// Works each number out, and gives how many there are.
pub fn compare(curve: &Curve) -> Outcome<usize> {
    let (card_key, terminal_key, wallet_key) = (Secret(rising(0x01)), Secret(rising(0x21)), Secret(rising(0x54)));
    let (pairing_secret, client_challenge, card_challenge) = (rising(0x70), rising(0x90), rising(0xB0));
    let point = curve.public_key(&terminal_key).ok_or("no key")?;
    let secret = curve.ecdh(&card_key, &point).ok_or("not on the curve")?;
    let pairing_key = pairing_key(&pairing_secret, &rising(0xD0));
    let (enc_key, mac_key) = channel_keys(&secret, &pairing_key.0, &rising(0x10));
    let wallet_point = curve.public_key(&wallet_key).ok_or("no key")?;
    let numbers = [
        (secret.0, "F40BB548D147B2C3CDCF635658C3FCA87A3C1F85C7AC006E9B9E80D4DC70D84D"),
        (
            cryptogram(&pairing_secret, &client_challenge),
            "BB7A5A06C4EF1CA26DBC20766D447E396D1FC7A3FB9094A9F06764F7B8ABCC92",
        ),
        (
            cryptogram(&pairing_secret, &card_challenge),
            "290FA612B03A9EC12217E71E22A609B638D330A7D92D0C99A71B9F8DFBEDE186",
        ),
        (pairing_key.0, "9700319F7794D6EF2900DCB834E238A6A62B0E0CCB7434F72735355CBDA35E16"),
        (enc_key.0, "D287F127E46E2DB4B5DADF207BA5A63C2655CE7E84DF79DF815D798472B3C553"),
        (mac_key.0, "9BBA7977576DBA2F33B69C289D34B4D2B02F4AE428496CFB6E4494E8DB81C7D8"),
        (
            key_uid(&wallet_point),
            "3C4DA72D512EDE74E7990A32C9605544E94477700431ECD1C0AACCD14BD636EE",
        ),
    ];
    for (own, other) in &numbers {
        if *own != bytes(other)? {
            return Err(format!("this should be {other}, and is {own:02X?}").into());
        }
    }
    Ok(numbers.len())
}
