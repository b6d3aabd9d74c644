//! The numbers that a command is made of: class, instruction, P1 and P2. P1 and P2 are 00 where nothing is named here; P2 is a choice for
//! [`EXPORT`] alone.

use crate::lengths::APPLICATION_ID_BYTES;

/// The class of SELECT.
pub const CLASS_SELECT: u8 = 0x00;
/// The class of all other commands.
pub const CLASS_CARD: u8 = 0x80;

/// SELECT, plain; its data are [`APPLICATION_ID`].
pub const SELECT: u8 = 0xA4;
/// INIT, plain.
pub const INIT: u8 = 0xFE;
/// OPEN SECURE CHANNEL, plain; P1 is the slot's index, from 0, under [`SLOTS`](crate::SLOTS).
pub const OPEN: u8 = 0x10;
/// MUTUALLY AUTHENTICATE, sealed.
pub const MUTUAL: u8 = 0x11;
/// PAIR, plain.
pub const PAIR: u8 = 0x12;
/// UNPAIR, sealed; P1 is the slot's index, from 0, under [`SLOTS`](crate::SLOTS).
pub const UNPAIR: u8 = 0x13;
/// GET STATUS, sealed.
pub const GET_STATUS: u8 = 0xF2;
/// VERIFY PIN, sealed.
pub const VERIFY: u8 = 0x20;
/// CHANGE PIN, PUK or pairing secret, sealed.
pub const CHANGE: u8 = 0x21;
/// UNBLOCK PIN, sealed.
pub const UNBLOCK: u8 = 0x22;
/// LOAD KEY, sealed.
pub const LOAD: u8 = 0xD0;
/// DERIVE KEY, sealed.
pub const DERIVE: u8 = 0xD1;
/// REMOVE KEY, sealed.
pub const REMOVE: u8 = 0xD3;
/// SET PIN-LESS PATH, sealed.
pub const SET_PINLESS_PATH: u8 = 0xC1;
/// SIGN, sealed.
pub const SIGN: u8 = 0xC0;
/// EXPORT KEY, sealed: a public key goes out, and the private key beside it only for paths that begin with [`EIP1581_PATH`].
///
/// It needs an extended key and a verified PIN; a PIN-less path does not help. P1 names the path, P2 what goes out. The data are the path,
/// 4 bytes a component as for [`DERIVE`], and none for [`P1_EXPORT_CURRENT`]. The answer is A1 holding 80, the public key of 65 bytes, and,
/// for [`P2_EXPORT_PRIVATE_AND_PUBLIC`], 81, the private key of 32 bytes. Where a private key is asked for elsewhere the answer is 6985, and
/// no supply is read; the host then need not work out that key. Of the card nothing changes but the channel's IV and, with
/// [`P1_EXPORT_DERIVE_AND_MAKE_CURRENT`] and 9000, the current path.
///
/// ```
/// use treadlewisp::*;
///
/// // A card with an extended key, taken from its stored record; its PIN is 024680, and one of its slots is filled.
/// let slots = [&[0x01][..], &[0x52; 32], &[0x00; (SLOTS - 1) * SLOT_BYTES]].concat();
/// let fields: [(u8, &[u8]); 13] = [
///     (0x10, &[0x01]),
///     (0x11, &[0x11; UID_BYTES]),
///     (0x12, &[0x04; PUBLIC_KEY_BYTES]),
///     (0x20, b"024680"),
///     (0x21, b"918273645546"),
///     (0x22, &[0x51; 32]),
///     (0x23, &[PIN_TRIES, PUK_TRIES]),
///     (0x24, &slots),
///     (0x30, &[KeyKind::Extended as u8]),
///     (0x31, &[0x71; 32]),
///     (0x32, &[]),
///     (0x33, &[]),
///     (0x34, &[]),
/// ];
/// let head = |tag: u8, content: &[u8]| [tag, (content.len() >> 8) as u8, content.len() as u8];
/// let record: Vec<u8> = fields.iter().flat_map(|&(tag, content)| [&head(tag, content), content].concat()).collect();
/// let mut card = Card::read(&record)?;
///
/// // OPEN. The supply is the host's: flag, both keys, salt and IV.
/// let mut buffer = [0; ANSWER_ROOM_BYTES];
/// let open = [&[command::CLASS_CARD, command::OPEN, 0x00, 0x00, 65][..], &[0x04; 65]].concat();
/// card.answer(&open, &[&[0x01], &[0x61; 32][..], &[0x62; 32], &[0x91; 32], &[0x63; 16]].concat(), &mut buffer)?;
/// let mut terminal = Session::new(&[0x61; 32], &[0x62; 32], &[0x63; 16]);
///
/// // From SEAL to UNSEAL: what the card answers inside the channel.
/// let mut send = |ins: u8, p1: u8, p2: u8, data: &[u8], supply: &[u8]| -> Result<Vec<u8>, Refusal> {
///     let mut sealed = [0; SEAL_ROOM_BYTES];
///     let sealed_bytes = terminal.seal(&[command::CLASS_CARD, ins, p1, p2], data, &mut sealed)?;
///     let mut response = [0; ANSWER_ROOM_BYTES];
///     let response_bytes = card.answer(&sealed[..sealed_bytes], supply, &mut response)?.count;
///     let mut opened = [0; UNSEAL_ROOM_BYTES];
///     let opened_bytes = terminal.unseal(&response[..response_bytes], &mut opened)?;
///     Ok(opened[..opened_bytes].to_vec())
/// };
/// send(command::MUTUAL, 0x00, 0x00, &[0x0E; 32], &[0x92; 32])?;
/// assert_eq!(send(command::VERIFY, 0x00, 0x00, b"024680", &[])?, [0x90, 0x00]);
///
/// // The first chat key, m/43'/60'/1581'/0', both parts. The supply: flag, public key 65, private key 32.
/// let chat = [&command::EIP1581_PATH[..], &[0x80, 0x00, 0x00, 0x00]].concat();
/// let supply = [&[0x01], &[0x04; 65][..], &[0x77; 32]].concat();
/// assert_eq!(supply.len(), SupplyKind::Export.bytes(command::P1_EXPORT_DERIVE));
/// let both = send(command::EXPORT, command::P1_EXPORT_DERIVE, command::P2_EXPORT_PRIVATE_AND_PUBLIC, &chat, &supply)?;
/// assert_eq!(both, [&[0xA1, 101, 0x80, 65], &[0x04; 65][..], &[0x81, 32], &[0x77; 32], &[0x90, 0x00]].concat());
///
/// // Elsewhere the private key does not go out, and the public key does.
/// let wallet = [0x80, 0x00, 0x00, 0x2C, 0x80, 0x00, 0x00, 0x3C];
/// let refused = send(command::EXPORT, command::P1_EXPORT_DERIVE, command::P2_EXPORT_PRIVATE_AND_PUBLIC, &wallet, &supply)?;
/// assert_eq!(StatusWord::of(&refused), Some(StatusWord::CONDITIONS_NOT_MET));
/// let public = send(command::EXPORT, command::P1_EXPORT_DERIVE, command::P2_EXPORT_PUBLIC_ONLY, &wallet, &supply)?;
/// assert_eq!(public, [&[0xA1, 67, 0x80, 65], &[0x04; 65][..], &[0x90, 0x00]].concat());
/// # Ok::<(), Refusal>(())
/// ```
pub const EXPORT: u8 = 0xC2;
/// SET NDEF, sealed: stores the card's own tap record, which a phone reads when the card is held to it ([`tap`](crate::tap)).
///
/// It needs a verified PIN and no key. The data are the tap record, 2 to 223 bytes. **Its first two bytes, high byte first, count the bytes
/// that follow them**: not themselves, and not Lc, which counts MAC and padding. Other data are 6A80, and the old tap record stays. 00 00 is
/// a tap record too, one of two bytes: no command makes it none again. RESET, SELECT and every other command keep it.
///
/// ```
/// use treadlewisp::*;
///
/// // A card without a key, taken from its stored record; its PIN is 024680. The record is an old one: five slots, and no field 34 for the
/// // tap record.
/// let slots = [&[0x01][..], &[0x52; 32], &[0x00; (SLOTS_BEFORE - 1) * SLOT_BYTES]].concat();
/// let fields: [(u8, &[u8]); 12] = [
///     (0x10, &[0x01]),
///     (0x11, &[0x11; UID_BYTES]),
///     (0x12, &[0x04; PUBLIC_KEY_BYTES]),
///     (0x20, b"024680"),
///     (0x21, b"918273645546"),
///     (0x22, &[0x51; 32]),
///     (0x23, &[PIN_TRIES, PUK_TRIES]),
///     (0x24, &slots),
///     (0x30, &[KeyKind::None as u8]),
///     (0x31, &[]),
///     (0x32, &[]),
///     (0x33, &[]),
/// ];
/// let old: Vec<u8> = fields.iter().flat_map(|(tag, content)| [&[*tag, 0x00, content.len() as u8], *content].concat()).collect();
/// let mut card = Card::read(&old)?;
/// let factory = [0x00, 0x03, 0xD0, 0x00, 0x00];
/// assert_eq!(tap(&old, &factory)?, factory);
///
/// // OPEN. The supply is the host's: flag, both keys, salt and IV.
/// let mut buffer = [0; ANSWER_ROOM_BYTES];
/// let open = [&[command::CLASS_CARD, command::OPEN, 0x00, 0x00, 65][..], &[0x04; 65]].concat();
/// card.answer(&open, &[&[0x01], &[0x61; 32][..], &[0x62; 32], &[0x91; 32], &[0x63; 16]].concat(), &mut buffer)?;
/// let mut terminal = Session::new(&[0x61; 32], &[0x62; 32], &[0x63; 16]);
///
/// // From SEAL to UNSEAL: what the card answers inside the channel.
/// let mut send = |ins: u8, data: &[u8], supply: &[u8]| -> Result<Vec<u8>, Refusal> {
///     let mut sealed = [0; SEAL_ROOM_BYTES];
///     let sealed_bytes = terminal.seal(&[command::CLASS_CARD, ins, 0x00, 0x00], data, &mut sealed)?;
///     let mut response = [0; ANSWER_ROOM_BYTES];
///     let response_bytes = card.answer(&sealed[..sealed_bytes], supply, &mut response)?.count;
///     let mut opened = [0; UNSEAL_ROOM_BYTES];
///     let opened_bytes = terminal.unseal(&response[..response_bytes], &mut opened)?;
///     Ok(opened[..opened_bytes].to_vec())
/// };
/// send(command::MUTUAL, &[0x0E; 32], &[0x92; 32])?;
/// assert_eq!(send(command::VERIFY, b"024680", &[])?, [0x90, 0x00]);
///
/// // A message of 16 bytes, the address https://example.com: its tap record begins 00 10, and has 18 bytes.
/// let message = [&[0xD1, 0x01, 0x0C, 0x55, 0x04][..], b"example.com"].concat();
/// let tap_record = [&[0x00, 0x10][..], &message].concat();
/// assert_eq!(send(command::SET_NDEF, &[&[0x00, 0x12][..], &message].concat(), &[])?, [0x6A, 0x80]); // 18 counts the two bytes too
/// assert_eq!(send(command::SET_NDEF, &tap_record, &[])?, [0x90, 0x00]);
///
/// // The stored record now has eight slots and ends with the tap record, and the tap read gives that part of it.
/// let mut record = [0; WRITE_ROOM_BYTES];
/// let count = card.write(&mut record)?;
/// assert_eq!(count, RECORD_MIN_BYTES + 18);
/// assert_eq!(tap(&record[..count], &factory)?, tap_record);
/// # Ok::<(), Refusal>(())
/// ```
pub const SET_NDEF: u8 = 0xF3;
/// GENERATE MNEMONIC, sealed: the numbers of the words of a new recovery phrase (BIP 39), made of entropy that the host supplies.
///
/// It needs the channel alone: no PIN and no key. P1 is the size of the phrase's checksum in bits, 04 to 08 ([`Phrase`](crate::Phrase)), P2 is
/// 00; others are 6A86. There are no data: any are 6A80. The supply is 4 times P1 bytes of entropy, and the answer 3 times P1 numbers from 0
/// to 2047, each in 2 bytes, the high byte first: 6 times P1 bytes. Of the card nothing changes but the channel's IV. It keeps neither entropy
/// nor words, and its key stays as it was.
///
/// The list of words is the terminal's: it shows the word of each number, works out the seed of the phrase, and brings it by [`LOAD`].
/// [`entropy`](crate::entropy) makes the entropy of the numbers again.
///
/// ```
/// use treadlewisp::*;
///
/// // A card without a key, taken from its stored record, whose first slot is filled.
/// let slots = [&[0x01][..], &[0x52; 32], &[0x00; (SLOTS - 1) * SLOT_BYTES]].concat();
/// let fields: [(u8, &[u8]); 13] = [
///     (0x10, &[0x01]),
///     (0x11, &[0x11; UID_BYTES]),
///     (0x12, &[0x04; PUBLIC_KEY_BYTES]),
///     (0x20, b"024680"),
///     (0x21, b"918273645546"),
///     (0x22, &[0x51; 32]),
///     (0x23, &[PIN_TRIES, PUK_TRIES]),
///     (0x24, &slots),
///     (0x30, &[KeyKind::None as u8]),
///     (0x31, &[]),
///     (0x32, &[]),
///     (0x33, &[]),
///     (0x34, &[]),
/// ];
/// let head = |tag: u8, content: &[u8]| [tag, (content.len() >> 8) as u8, content.len() as u8];
/// let record: Vec<u8> = fields.iter().flat_map(|&(tag, content)| [&head(tag, content), content].concat()).collect();
/// let mut card = Card::read(&record)?;
///
/// // OPEN. The supply is the host's: flag, both keys, salt and IV.
/// let mut buffer = [0; ANSWER_ROOM_BYTES];
/// let open = [&[command::CLASS_CARD, command::OPEN, 0x00, 0x00, 65][..], &[0x04; 65]].concat();
/// card.answer(&open, &[&[0x01], &[0x61; 32][..], &[0x62; 32], &[0x91; 32], &[0x63; 16]].concat(), &mut buffer)?;
/// let mut terminal = Session::new(&[0x61; 32], &[0x62; 32], &[0x63; 16]);
///
/// // From SEAL to UNSEAL, with this supply: what the card answers inside the channel.
/// let mut send = |command: ChannelCommand, supply: Supply| -> Result<Vec<u8>, Refusal> {
///     let sealed = command.seal(&mut terminal)?;
///     let asked = card.ask(sealed.bytes(), &mut [0; ASK_ROOM_BYTES])?;
///     assert_eq!(asked.kind, supply.kind());
///     let mut response = [0; ANSWER_ROOM_BYTES];
///     let response_bytes = card.answer(sealed.bytes(), supply.bytes(), &mut response)?.count;
///     let mut opened = [0; UNSEAL_ROOM_BYTES];
///     let opened_bytes = terminal.unseal(&response[..response_bytes], &mut opened)?;
///     Ok(opened[..opened_bytes].to_vec())
/// };
/// send(ChannelCommand::mutual(&[0x0E; 32]), Supply::mutual(&[0x92; 32]))?;
///
/// // BIP 39's first test, 12 words: a real host draws these 16 bytes at random.
/// let words = send(ChannelCommand::generate_mnemonic(Phrase::Words12), Supply::mnemonic(&[0x00; 16])?)?;
/// let numbers: Vec<u16> = words[..24].chunks(2).map(|number| u16::from_be_bytes([number[0], number[1]])).collect();
/// assert_eq!(numbers, [0, 0, 0, 0, 0, 0, 0, 0, 0, 0, 0, 3]); // abandon, 11 times, and about
/// assert_eq!(words[24..], [0x90, 0x00]);
///
/// // And back.
/// assert_eq!(entropy(&words[..24])?.bytes(), [0x00; 16]);
/// # Ok::<(), Refusal>(())
/// ```
pub const GENERATE_MNEMONIC: u8 = 0xD2;

/// P1 of SELECT.
pub const P1_SELECT: u8 = 0x04;
/// P1 of PAIR's first step.
pub const P1_PAIR_FIRST: u8 = 0x00;
/// P1 of PAIR's final step.
pub const P1_PAIR_FINAL: u8 = 0x01;
/// P1 of GET STATUS for the tries left, and whether there is a key.
pub const P1_STATUS_TRIES: u8 = 0x00;
/// P1 of GET STATUS for the current path.
pub const P1_STATUS_PATH: u8 = 0x01;
/// P1 of CHANGE for the PIN.
pub const P1_CHANGE_PIN: u8 = 0x00;
/// P1 of CHANGE for the PUK.
pub const P1_CHANGE_PUK: u8 = 0x01;
/// P1 of CHANGE for the pairing secret.
pub const P1_CHANGE_SECRET: u8 = 0x02;
/// P1 of LOAD for a key without a chain code.
pub const P1_LOAD_PLAIN: u8 = 0x01;
/// P1 of LOAD for an extended key.
pub const P1_LOAD_EXTENDED: u8 = 0x02;
/// P1 of LOAD for a seed of 64 bytes.
pub const P1_LOAD_SEED: u8 = 0x03;
/// P1 of EXPORT for the current path; there are no data.
pub const P1_EXPORT_CURRENT: u8 = 0x00;
/// P1 of EXPORT for the path in the data; the current path stays.
pub const P1_EXPORT_DERIVE: u8 = 0x01;
/// P1 of EXPORT for the path in the data, which is the current path after 9000.
pub const P1_EXPORT_DERIVE_AND_MAKE_CURRENT: u8 = 0x02;
/// P1 of GENERATE MNEMONIC for 12 words: a checksum of 4 bits, of 16 bytes of entropy.
pub const P1_MNEMONIC_12_WORDS: u8 = 0x04;
/// P1 of GENERATE MNEMONIC for 15 words: a checksum of 5 bits, of 20 bytes of entropy.
pub const P1_MNEMONIC_15_WORDS: u8 = 0x05;
/// P1 of GENERATE MNEMONIC for 18 words: a checksum of 6 bits, of 24 bytes of entropy.
pub const P1_MNEMONIC_18_WORDS: u8 = 0x06;
/// P1 of GENERATE MNEMONIC for 21 words: a checksum of 7 bits, of 28 bytes of entropy.
pub const P1_MNEMONIC_21_WORDS: u8 = 0x07;
/// P1 of GENERATE MNEMONIC for 24 words: a checksum of 8 bits, of 32 bytes of entropy.
pub const P1_MNEMONIC_24_WORDS: u8 = 0x08;

/// P2 of EXPORT for both keys.
pub const P2_EXPORT_PRIVATE_AND_PUBLIC: u8 = 0x00;
/// P2 of EXPORT for the public key alone.
pub const P2_EXPORT_PUBLIC_ONLY: u8 = 0x01;

/// The path m/43'/60'/1581' (EIP-1581), 12 bytes: EXPORT gives a private key only for it and for paths that begin with it.
pub const EIP1581_PATH: [u8; 12] = [0x80, 0x00, 0x00, 0x2B, 0x80, 0x00, 0x00, 0x3C, 0x80, 0x00, 0x06, 0x2D];

/// The data of SELECT, 15 bytes.
pub const APPLICATION_ID: &[u8; APPLICATION_ID_BYTES] = b"StatusWalletApp";
