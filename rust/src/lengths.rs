//! Lengths in bytes, under the names of `include/treadlewisp.h`, and the few numbers that count something else.

/// Length of a card's UID, in bytes.
pub const UID_BYTES: usize = 16;
/// Length of a public key, an uncompressed point, in bytes.
pub const PUBLIC_KEY_BYTES: usize = 65;
/// Length of a PIN, in bytes; each is a digit.
pub const PIN_BYTES: usize = 6;
/// Length of a PUK, in bytes; each is a digit.
pub const PUK_BYTES: usize = 12;
/// Length of a key, and also of a pairing secret, a cryptogram and a key UID, in bytes.
pub const KEY_BYTES: usize = 32;
/// Length of a session's IV, in bytes.
pub const IV_BYTES: usize = 16;
/// Length of a message's MAC, in bytes.
pub const MAC_BYTES: usize = 16;
/// Length of one component of a path, in bytes.
pub const COMPONENT_BYTES: usize = 4;
/// The longest path, in bytes: 10 components.
pub const PATH_MAX_BYTES: usize = 10 * COMPONENT_BYTES;
/// Length of the application id, [`command::APPLICATION_ID`](crate::command::APPLICATION_ID), in bytes: the data of SELECT.
pub const APPLICATION_ID_BYTES: usize = 15;
/// Length of a command's header, CLA INS P1 P2, in bytes.
pub const HEADER_BYTES: usize = 4;
/// Length of a status word, in bytes.
pub const STATUS_BYTES: usize = 2;
/// Length of a pairing slot as [`Slot`](crate::Slot) has it, in bytes: its flag and its key.
pub const SLOT_BYTES: usize = 1 + KEY_BYTES;
/// Length of a path as [`Path`](crate::Path) has it, in bytes: how many are in use, and the room.
pub const PATH_BYTES: usize = 1 + PATH_MAX_BYTES;
/// Length of what a tap record begins with, in bytes: the number of bytes that follow, high byte first.
pub const TAP_COUNT_BYTES: usize = 2;
/// The longest tap record, in bytes, those that count the others included: the most data of a command.
pub const TAP_MAX_BYTES: usize = 223;
/// Length of a tap record as [`TapRecord`](crate::TapRecord) has it, in bytes: how many are in use, and the room.
pub const TAP_BYTES: usize = 1 + TAP_MAX_BYTES;
/// Length of the entropy of a recovery phrase for each bit of its checksum, in bytes.
pub const ENTROPY_BYTES_PER_CHECKSUM_BIT: usize = 4;
/// The shortest entropy of a recovery phrase, in bytes: that of 12 words, whose checksum has 4 bits.
pub const ENTROPY_MIN_BYTES: usize = 4 * ENTROPY_BYTES_PER_CHECKSUM_BIT;
/// The longest entropy of a recovery phrase, in bytes: that of 24 words, whose checksum has 8 bits.
pub const ENTROPY_MAX_BYTES: usize = 8 * ENTROPY_BYTES_PER_CHECKSUM_BIT;
/// Length of the number of one word, in bytes; the high byte is first.
pub const WORD_NUMBER_BYTES: usize = 2;
/// Length of the numbers of 12 words, in bytes: the shortest recovery phrase.
pub const WORDS_MIN_BYTES: usize = 12 * WORD_NUMBER_BYTES;
/// Length of the numbers of 24 words, in bytes: the longest recovery phrase.
pub const WORDS_MAX_BYTES: usize = 24 * WORD_NUMBER_BYTES;
/// Length of a session, in bytes.
pub const SESSION_BYTES: usize = KEY_BYTES + KEY_BYTES + IV_BYTES;
/// Length of a card's record as [`Card`](crate::Card) has it, in bytes: the sum of its fields. The stored record of WRITE is another one.
pub const CARD_BYTES: usize = 1 + IDENTITY_BYTES + PINS_BYTES + PAIRING_BYTES + KEYS_BYTES + 1 + SESSION_BYTES + TAP_BYTES;

/// The parts of a card, in bytes, but for its channel, a stage and a session, and its tap record.
const IDENTITY_BYTES: usize = UID_BYTES + PUBLIC_KEY_BYTES;
const PINS_BYTES: usize = PIN_BYTES + PUK_BYTES + 1 + 1 + 1;
const PAIRING_BYTES: usize = KEY_BYTES + SLOTS * SLOT_BYTES + 1 + KEY_BYTES;
const KEYS_BYTES: usize = 1 + KEY_BYTES + PATH_BYTES + PATH_BYTES;

/// The least buffer that ASK takes, in bytes.
pub const ASK_ROOM_BYTES: usize = 255;
/// The least buffer that ANSWER takes, in bytes.
pub const ANSWER_ROOM_BYTES: usize = 258;
/// The least buffer that SEAL takes, in bytes.
pub const SEAL_ROOM_BYTES: usize = 261;
/// The least buffer that UNSEAL takes, in bytes.
pub const UNSEAL_ROOM_BYTES: usize = 223;
/// The least buffer that ENTROPY takes, in bytes.
pub const ENTROPY_ROOM_BYTES: usize = ENTROPY_MAX_BYTES;
/// The least buffer that WRITE takes, in bytes.
pub const WRITE_ROOM_BYTES: usize = RECORD_MAX_BYTES;

/// Length of a page of memory, in bytes.
pub const PAGE_BYTES: usize = 4096;
/// How much of the stack [`wipe_stack`](crate::wipe_stack) overwrites, in bytes. Every call of this crate uses less.
pub const STACK_WIPE_BYTES: usize = 12 * PAGE_BYTES;

/// Length of a hash to sign, in bytes.
pub const HASH_BYTES: usize = 32;
/// Length of a seed that LOAD takes, in bytes.
pub const SEED_BYTES: usize = 64;
/// The most data of a plain command, in bytes: Lc is one byte.
pub const PLAIN_DATA_MAX_BYTES: usize = 255;
/// The most data that SEAL takes, in bytes.
pub const DATA_MAX_BYTES: usize = 223;
/// The longest supply of any kind, in bytes.
pub const SUPPLY_MAX_BYTES: usize = 129;
/// Length of the head of a stored record's field, in bytes: a tag and a length.
pub const FIELD_HEAD_BYTES: usize = 1 + 2;
/// Length of a stored record before INIT, in bytes: three fields.
pub const RECORD_FRESH_BYTES: usize = 3 * FIELD_HEAD_BYTES + 1 + UID_BYTES + PUBLIC_KEY_BYTES;
/// The shortest stored record after INIT, in bytes: ten fields more, four of them empty.
pub const RECORD_MIN_BYTES: usize = RECORD_ALWAYS_BYTES + SLOTS * SLOT_BYTES + FIELD_HEAD_BYTES;
/// The longest stored record, in bytes: with a key UID, two full paths and the longest tap record.
pub const RECORD_MAX_BYTES: usize = RECORD_MIN_BYTES + KEY_BYTES + 2 * PATH_MAX_BYTES + TAP_MAX_BYTES;
/// The shortest stored record after INIT in an older form, in bytes: with [`SLOTS_BEFORE`] slots and without the field of the tap record.
/// READ takes it.
pub const RECORD_OLD_MIN_BYTES: usize = RECORD_ALWAYS_BYTES + SLOTS_BEFORE * SLOT_BYTES;
/// The longest stored record in an older form, in bytes: with [`SLOTS_BEFORE`] slots and the longest tap record. READ takes it.
pub const RECORD_OLD_MAX_BYTES: usize = RECORD_OLD_MIN_BYTES + KEY_BYTES + 2 * PATH_MAX_BYTES + FIELD_HEAD_BYTES + TAP_MAX_BYTES;

/// What every form of a stored record has after INIT: its fields without the content of the slots, and without the field of the tap record.
const RECORD_ALWAYS_BYTES: usize = RECORD_FRESH_BYTES + RECORD_SECRETS_BYTES + 4 * FIELD_HEAD_BYTES + 1;
/// The five fields of PIN, PUK, pairing secret, tries and slots, the last without its content.
const RECORD_SECRETS_BYTES: usize = 5 * FIELD_HEAD_BYTES + PIN_BYTES + PUK_BYTES + KEY_BYTES + 1 + 1;

/// How many pairing slots a card has; their indexes are 0 to 7.
pub const SLOTS: usize = 8;
/// How many pairing slots a card had up to version 0.5.0. [`Card::read`](crate::Card::read) takes the records of both.
pub const SLOTS_BEFORE: usize = 5;
/// What is added to a component of a path that is hardened: 44' is `44 + HARDENED`. This is no length.
pub const HARDENED: u32 = 0x8000_0000;
/// How many tries a PIN starts with.
pub const PIN_TRIES: u8 = 3;
/// How many tries a PUK starts with.
pub const PUK_TRIES: u8 = 5;
/// The greatest number of a word: the list has 2048 words, and their numbers begin with 0. This is no length.
pub const WORD_NUMBER_MAX: u16 = 2047;
/// How deep templates may nest for WALK; a top one is at depth 1.
pub const WALK_DEPTH_MAX: usize = 4;
