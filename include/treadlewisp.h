/* SPDX-License-Identifier: Apache-2.0

   The engine of a wallet card, for C and C++: the functions of the library treadlewisp, on Linux for x86-64, AArch64 and 64-bit RISC-V.
   To link: `pkg-config --cflags --libs treadlewisp` for the shared object, with `--static` and -static, or with libtreadlewisp.a by name, for the
   archive. docs/RELEASING.md says what is installed; `tools/archive treadlewisp` proves and builds the archive.
   Every length, room and count is in bytes unless the line says fields, tries or words. Nothing is kept between calls, and nothing is
   allocated; of the C library only memcpy and memset are needed. The library wipes nothing: a call leaves parts of what it was given on the
   stack, PIN and keys too. tw_wipe_stack and tw_wipe, at the end, wipe the stack and memory; SECURITY.md says how secrets live and die.
   What is proved of each function is at its name in crates/library_card, library_engine or library_terminal, src/lib.rt. It holds if the
   caller ensures, at every call:
   - each pointer is valid for the bytes named (a buffer, and a card or session that is changed: to read and write); no pointer needs an
     alignment;
   - no pointer is null, but for one whose length is given beside it and is 0: no bytes may be null and 0. That is tested, for each such
     argument on each processor (outside/c/installed.c), and not proved: the proofs speak of bytes, and there are none. What is compiled marks
     no pointer as never null (tools/archive looks);
   - a length is the number of bytes that may be read, or written, from its pointer on, and is under 2^63;
   - memory that a call may write (card or session without const, buffer) overlaps no other argument of that call, and no other thread
     reads or writes it meanwhile; memory that a call only reads is written by no one meanwhile.
   The same is said at each function, for its own arguments. */
#ifndef TREADLEWISP_H
#define TREADLEWISP_H

#include <stddef.h>
#include <stdint.h>

#ifdef __cplusplus
extern "C" {
#define TW_CHECK(fact, text) static_assert(fact, text)
#else
#define TW_CHECK(fact, text) _Static_assert(fact, text)
#endif

/* The version: one number for this header, the library, the Rust crate and the crates that they are proved from. CHANGELOG.md says what it
   promises about the card's layout and the stored record. */
#define TW_VERSION_MAJOR 0
#define TW_VERSION_MINOR 8
#define TW_VERSION_PATCH 1
#define TW_VERSION "0.8.1"

/* The application id, which is the data of SELECT, TW_APPLICATION_ID_BYTES bytes ("StatusWalletApp"): an initialiser of an array of uint8_t. */
#define TW_APPLICATION_ID {0x53, 0x74, 0x61, 0x74, 0x75, 0x73, 0x57, 0x61, 0x6C, 0x6C, 0x65, 0x74, 0x41, 0x70, 0x70}

/* Numbers that follow from others are written as their sums; docs/LAYOUT.md has them worked out, and rust/tests/layout.rs holds both against
   each other. */
enum {
    /* How many pairing slots a card has, their indexes being 0 to 7, and how many it had up to version 0.5.0, whose records READ takes too;
       how many tries a PIN and a PUK start with; how deep templates may nest (a top one is at 1). */
    TW_SLOTS = 8,
    TW_SLOTS_BEFORE = 5,
    TW_PIN_TRIES = 3,
    TW_PUK_TRIES = 5,
    TW_WALK_DEPTH_MAX = 4,

    /* Lengths, in bytes. */
    TW_UID_BYTES = 16,
    TW_PUBLIC_KEY_BYTES = 65,
    TW_PIN_BYTES = 6,
    TW_PUK_BYTES = 12,
    TW_KEY_BYTES = 32, /* also a pairing secret, a cryptogram, a key UID */
    TW_IV_BYTES = 16,
    TW_MAC_BYTES = 16,
    TW_COMPONENT_BYTES = 4,                      /* one component of a path */
    TW_PATH_MAX_BYTES = 10 * TW_COMPONENT_BYTES, /* 10 components */
    TW_SLOT_BYTES = 1 + TW_KEY_BYTES,            /* a slot, as tw_slot */
    TW_PATH_BYTES = 1 + TW_PATH_MAX_BYTES,       /* a path, as tw_path */
    TW_TAP_COUNT_BYTES = 2,                      /* what a tap record begins with: how many bytes follow, high byte first */
    TW_TAP_MAX_BYTES = 223,                      /* the longest tap record, as SET NDEF takes it, its first two bytes included */
    TW_TAP_BYTES = 1 + TW_TAP_MAX_BYTES,         /* a tap record, as tw_tap_record */
    TW_APPLICATION_ID_BYTES = 15,                /* the data of SELECT, TW_APPLICATION_ID */
    TW_HEADER_BYTES = 4,                         /* CLA INS P1 P2 */
    TW_STATUS_BYTES = 2,                         /* a status word, the high byte first */

    /* A recovery phrase (BIP 39): lengths of its entropy and of the numbers of its 12, 15, 18, 21 or 24 words, in bytes. Only the checksum
       is counted in bits, 4 to 8: one for each 3 words. */
    TW_ENTROPY_BYTES_PER_CHECKSUM_BIT = 4,
    TW_ENTROPY_MIN_BYTES = 4 * TW_ENTROPY_BYTES_PER_CHECKSUM_BIT, /* for 12 words */
    TW_ENTROPY_MAX_BYTES = 8 * TW_ENTROPY_BYTES_PER_CHECKSUM_BIT, /* for 24 words */
    TW_WORD_NUMBER_BYTES = 2,                                     /* the number of one word, the high byte first */
    TW_WORDS_MIN_BYTES = 12 * TW_WORD_NUMBER_BYTES,
    TW_WORDS_MAX_BYTES = 24 * TW_WORD_NUMBER_BYTES,
    TW_WORD_NUMBER_MAX = 2047, /* no length: the list has 2048 words, and their numbers begin with 0 */

    /* Where each field of tw_card begins, in bytes from its start: after the field before it. */
    TW_AT_INITIALISED = 0,
    TW_AT_UID = TW_AT_INITIALISED + 1,
    TW_AT_PUBLIC_KEY = TW_AT_UID + TW_UID_BYTES,
    TW_AT_PIN = TW_AT_PUBLIC_KEY + TW_PUBLIC_KEY_BYTES,
    TW_AT_PUK = TW_AT_PIN + TW_PIN_BYTES,
    TW_AT_PIN_TRIES = TW_AT_PUK + TW_PUK_BYTES,
    TW_AT_PUK_TRIES = TW_AT_PIN_TRIES + 1,
    TW_AT_VERIFIED = TW_AT_PUK_TRIES + 1,
    TW_AT_SECRET = TW_AT_VERIFIED + 1,
    TW_AT_SLOTS = TW_AT_SECRET + TW_KEY_BYTES,
    TW_AT_PENDING = TW_AT_SLOTS + TW_SLOTS * TW_SLOT_BYTES,
    TW_AT_EXPECTED = TW_AT_PENDING + 1,
    TW_AT_KEY_KIND = TW_AT_EXPECTED + TW_KEY_BYTES,
    TW_AT_KEY_UID = TW_AT_KEY_KIND + 1,
    TW_AT_CURRENT = TW_AT_KEY_UID + TW_KEY_BYTES,
    TW_AT_PINLESS = TW_AT_CURRENT + TW_PATH_BYTES,
    TW_AT_STAGE = TW_AT_PINLESS + TW_PATH_BYTES,
    TW_AT_ENC_KEY = TW_AT_STAGE + 1,
    TW_AT_MAC_KEY = TW_AT_ENC_KEY + TW_KEY_BYTES,
    TW_AT_IV = TW_AT_MAC_KEY + TW_KEY_BYTES,
    TW_AT_TAP = TW_AT_IV + TW_IV_BYTES,

    /* The length of a card, as tw_card, and of a session, as tw_session, in bytes. A card is not the stored record. */
    TW_CARD_BYTES = TW_AT_TAP + TW_TAP_BYTES,
    TW_SESSION_BYTES = TW_KEY_BYTES + TW_KEY_BYTES + TW_IV_BYTES,

    /* The length of a stored record, in bytes: before INIT, and the least and the greatest after it. A field has a tag and a length before
       its content; there are 3 before INIT and 13 after it, and four of these may be empty. The part that is there in every form of an
       initialised record is its fields without the content of the slots, and without the tap record's field. */
    TW_FIELD_HEAD_BYTES = 1 + 2,
    TW_RECORD_FRESH_BYTES = 3 * TW_FIELD_HEAD_BYTES + 1 + TW_UID_BYTES + TW_PUBLIC_KEY_BYTES,
    TW_RECORD_SECRETS_BYTES = 5 * TW_FIELD_HEAD_BYTES + TW_PIN_BYTES + TW_PUK_BYTES + TW_KEY_BYTES + 1 + 1,
    TW_RECORD_KEYS_BYTES = 4 * TW_FIELD_HEAD_BYTES + 1,
    TW_RECORD_ALWAYS_BYTES = TW_RECORD_FRESH_BYTES + TW_RECORD_SECRETS_BYTES + TW_RECORD_KEYS_BYTES,
    TW_RECORD_MIN_BYTES = TW_RECORD_ALWAYS_BYTES + TW_SLOTS * TW_SLOT_BYTES + TW_FIELD_HEAD_BYTES,
    TW_RECORD_MAX_BYTES = TW_RECORD_MIN_BYTES + TW_KEY_BYTES + 2 * TW_PATH_MAX_BYTES + TW_TAP_MAX_BYTES,

    /* READ takes three older forms of an initialised record too, and WRITE writes none of them: with TW_SLOTS_BEFORE slots and without the
       tap record's field, 336 to 448 bytes (up to version 0.4.0); with TW_SLOTS_BEFORE slots and with that field, 339 to 674 bytes (version
       0.5.0); with TW_SLOTS slots and without that field, 435 to 547 bytes (no version wrote it). The least and the greatest of these three,
       in bytes. */
    TW_RECORD_OLD_MIN_BYTES = TW_RECORD_ALWAYS_BYTES + TW_SLOTS_BEFORE * TW_SLOT_BYTES,
    TW_RECORD_OLD_MAX_BYTES = TW_RECORD_OLD_MIN_BYTES + TW_KEY_BYTES + 2 * TW_PATH_MAX_BYTES + TW_FIELD_HEAD_BYTES + TW_TAP_MAX_BYTES,

    /* The least room of a buffer, in bytes; under it the operation is refused with TW_ROOM. */
    TW_ASK_ROOM_BYTES = 255,
    TW_ANSWER_ROOM_BYTES = 258,
    TW_SEAL_ROOM_BYTES = 261,
    TW_UNSEAL_ROOM_BYTES = 223,
    TW_ENTROPY_ROOM_BYTES = TW_ENTROPY_MAX_BYTES,
    TW_WRITE_ROOM_BYTES = TW_RECORD_MAX_BYTES,

    /* The most data that SEAL takes, in bytes; over it the operation is refused with TW_TOO_LONG. */
    TW_DATA_MAX_BYTES = 223,

    /* The fault offset of tw_answer where there is none. No offset is as great: opened data has at most TW_DATA_MAX_BYTES bytes. */
    TW_NO_FAULT = 255,

    /* A page of memory. */
    TW_PAGE_BYTES = 4096,
    /* How much of the stack tw_wipe_stack overwrites. Every function of the library uses less: outside/c/secrets.c measures. */
    TW_STACK_WIPE_BYTES = 12 * TW_PAGE_BYTES
};

/* Refusals. A refused call reports count and kind 0, writes nothing to the buffer and leaves card and session as they were
   (tw_read: the card becomes FRESH of zeros). Where several apply, the lowest is given; of 4 and 5, the one that is met first. With 4 and 5
   WALK also tells where: tw_walked. */
enum tw_refusal {
    TW_DONE = 0,              /* not refused */
    TW_UNSOUND = 1,           /* RESET, ASK, ANSWER, WRITE: the card is not sound */
    TW_ROOM = 2,              /* the buffer is smaller than the operation asks for */
    TW_BAD_SUPPLY = 3,        /* ANSWER reads a supply, and its length or its flag byte is wrong */
    TW_MALFORMED = 4,         /* WALK: no sequence of fields */
    TW_TOO_DEEP = 5,          /* WALK: templates nest deeper than 4 (TW_WALK_DEPTH_MAX) */
    TW_TOO_LONG = 6,          /* SEAL: more than 223 bytes of data */
    TW_NOT_GENUINE = 7,       /* UNSEAL: the response does not open */
    TW_NOT_RECORD = 8,        /* READ, the tap read: the bytes are no card's record */
    TW_WRONG_COUNT = 9,       /* ENTROPY: not 12, 15, 18, 21 or 24 numbers of 2 bytes */
    TW_NUMBER_TOO_LARGE = 10, /* ENTROPY: a number is over 2047 (TW_WORD_NUMBER_MAX) */
    TW_WRONG_CHECKSUM = 11    /* ENTROPY: the checksum is not that of the entropy */
};

/* Where the part that the tap read gives lies. */
enum tw_tap_source {
    TW_TAP_NONE = 0,   /* nowhere: the call is refused */
    TW_TAP_RECORD = 1, /* in the stored record: the card's own tap record */
    TW_TAP_FACTORY = 2 /* it is the factory record, whole */
};

/* Kinds of supply, as ASK reports them. A flag is one byte, 00 (no) or 01 (yes); after 00 the rest is there but not read. */
enum tw_supply_kind {
    TW_SUPPLY_NONE = 0,       /* ANSWER reads no supply */
    TW_SUPPLY_INIT = 1,       /* 33 bytes: flag, AES key 32 */
    TW_SUPPLY_OPEN = 2,       /* 113 bytes: flag, encryption key 32, MAC key 32, salt 32, IV 16 */
    TW_SUPPLY_MUTUAL = 3,     /* 32 bytes: random */
    TW_SUPPLY_PAIR_FIRST = 4, /* 32 bytes: the card's challenge, random; the card works out both cryptograms */
    TW_SUPPLY_PAIR_FINAL = 5, /* 32 bytes: salt, random; the card works out the pairing key */
    TW_SUPPLY_LOAD = 6,       /* 66 bytes: flag, public key 65 of the loaded key; the card works out the key UID */
    TW_SUPPLY_DERIVE = 7,     /* 1 byte: flag */
    TW_SUPPLY_SIGN = 8,       /* 129 bytes: public key 65, r 32, s 32 */
    TW_SUPPLY_EXPORT = 9,     /* 98 bytes: flag, public key 65, private key 32; the private key also where it does not go out */
    TW_SUPPLY_MNEMONIC = 10   /* 4 times P1 bytes, 16 to 32: entropy, random; P1 is the third byte of the command */
};

/* The length of each kind of supply, in bytes. ANSWER refuses any other with TW_BAD_SUPPLY. That of TW_SUPPLY_MNEMONIC goes by P1:
   TW_ENTROPY_BYTES_PER_CHECKSUM_BIT times P1. */
enum {
    TW_SUPPLY_INIT_BYTES = 33,
    TW_SUPPLY_OPEN_BYTES = 113,
    TW_SUPPLY_MUTUAL_BYTES = 32,
    TW_SUPPLY_PAIR_FIRST_BYTES = 32,
    TW_SUPPLY_PAIR_FINAL_BYTES = 32,
    TW_SUPPLY_LOAD_BYTES = 66,
    TW_SUPPLY_DERIVE_BYTES = 1,
    TW_SUPPLY_SIGN_BYTES = 129,
    TW_SUPPLY_EXPORT_BYTES = 98,
    TW_SUPPLY_MAX_BYTES = 129 /* no supply is longer */
};

/* Status words: the last two bytes of an answer, the high byte first (in a sealed answer, of its plaintext). */
enum tw_status_word {
    TW_SW_SUCCESS = 0x9000,
    TW_SW_TRIES_LEFT = 0x63C0, /* plus the tries left: 0 to 2 of the PIN, 0 to 4 of the PUK */
    TW_SW_WRONG_LENGTH = 0x6700,
    TW_SW_SECURITY_NOT_MET = 0x6982,
    TW_SW_REFERENCE_INVALID = 0x6984,
    TW_SW_CONDITIONS_NOT_MET = 0x6985,
    TW_SW_WRONG_DATA = 0x6A80,
    TW_SW_NOT_FOUND = 0x6A82,
    TW_SW_NO_SPACE = 0x6A84,
    TW_SW_WRONG_PARAMETERS = 0x6A86,
    TW_SW_UNKNOWN_INSTRUCTION = 0x6D00,
    TW_SW_UNKNOWN_CLASS = 0x6E00
};

/* The class byte: 00 for SELECT, 80 for all other commands. */
enum tw_class {
    TW_CLASS_SELECT = 0x00,
    TW_CLASS_CARD = 0x80
};

/* The instruction byte of each command. SELECT, INIT, OPEN and PAIR are plain; all others are sealed by SEAL. */
enum tw_instruction {
    TW_INS_SELECT = 0xA4,
    TW_INS_INIT = 0xFE,
    TW_INS_OPEN = 0x10, /* P1: the slot, from 0, under TW_SLOTS */
    TW_INS_MUTUAL = 0x11,
    TW_INS_PAIR = 0x12,
    TW_INS_UNPAIR = 0x13, /* P1: the slot, from 0, under TW_SLOTS */
    TW_INS_GET_STATUS = 0xF2,
    TW_INS_VERIFY = 0x20,
    TW_INS_CHANGE = 0x21,
    TW_INS_UNBLOCK = 0x22,
    TW_INS_LOAD = 0xD0,
    TW_INS_DERIVE = 0xD1,
    TW_INS_REMOVE = 0xD3,
    TW_INS_SET_PINLESS_PATH = 0xC1,
    TW_INS_SIGN = 0xC0,
    TW_INS_EXPORT = 0xC2, /* a private key goes out only for paths that begin 8000002B 8000003C 8000062D (EIP-1581) */
    TW_INS_SET_NDEF = 0xF3, /* data: the tap record, whose first two bytes count those that follow them */
    TW_INS_GENERATE_MNEMONIC = 0xD2 /* no data; the answer is 3 times P1 numbers of words, 2 bytes each: a recovery phrase (BIP 39) */
};

/* The response data of each command with 9000; numbers in brackets are lengths in bytes, and other bytes are hexadecimal. Before the status
   word (2) a plain answer has these bytes as they are. A sealed answer is MAC (16), ciphertext (16, 32, .. 224) and 9000 (2): 34 to 242 bytes; its
   plaintext, which UNSEAL gives, has these bytes and then the status word that counts (2). Where the status word is another there are none.
   - SELECT before INIT: 80 41, public key (65): 67 bytes. After INIT: A4 5E, or A4 7E with a key (2); 8F 10 (2), UID (16); 80 41 (2), public
     key (65); 02 02 02 00 (4), the version 2.0; 02 01 (2), free slots, 0 to 8 (1); 8E 00 (2), or 8E 20 (2) and key UID (32): 96 or 128 bytes.
   - OPEN: salt (32), IV (16): 48 bytes. MUTUAL: the host's random: 32 bytes.
   - PAIR, first step: card cryptogram (32), card challenge (32): 64 bytes. Final step: index of the slot, 00 to 07 (1), salt (32): 33 bytes.
   - GET STATUS with P1 00: A3 09 (2), 02 01 (2), PIN tries (1), 02 01 (2), PUK tries (1), 01 01 (2), FF with a key and else 00 (1): 11 bytes.
     With P1 01: the current path, 4 bytes a component: 0 to 40 bytes.
   - LOAD: key UID: 32 bytes.
   - SIGN: A0 and the length of all that follows (2, from 128 on 3), 80 41 (2), public key (65), 30 and the length of what follows (2), r as 02,
     length and number (3 to 35), s likewise (3 to 35): 77 to 142 bytes.
   - EXPORT with P2 00: A1 65 (2), 80 41 (2), public key (65), 81 20 (2), private key (32): 103 bytes. With P2 01: A1 43 (2), 80 41 (2), public
     key (65): 69 bytes.
   - GENERATE MNEMONIC: 3 times P1 numbers of words (2 each, the high byte first): 24, 30, 36, 42 or 48 bytes.
   - INIT, UNPAIR, VERIFY, CHANGE, UNBLOCK, DERIVE, REMOVE, SET PINLESS PATH and SET NDEF: no bytes. */

/* P1 where it is a choice. For other commands it is 00. */
enum {
    TW_P1_SELECT = 0x04,
    TW_P1_PAIR_FIRST = 0x00,
    TW_P1_PAIR_FINAL = 0x01,
    TW_P1_STATUS_TRIES = 0x00, /* tries left, and whether there is a key */
    TW_P1_STATUS_PATH = 0x01,  /* the current path */
    TW_P1_CHANGE_PIN = 0x00,
    TW_P1_CHANGE_PUK = 0x01,
    TW_P1_CHANGE_SECRET = 0x02, /* the pairing secret */
    TW_P1_LOAD_PLAIN = 0x01,
    TW_P1_LOAD_EXTENDED = 0x02,
    TW_P1_LOAD_SEED = 0x03,
    TW_P1_EXPORT_CURRENT = 0x00,                 /* the current path; no data */
    TW_P1_EXPORT_DERIVE = 0x01,                  /* the path in the data; the current path stays */
    TW_P1_EXPORT_DERIVE_AND_MAKE_CURRENT = 0x02, /* the path in the data, which is the current path after 9000 */
    TW_P1_MNEMONIC_12_WORDS = 0x04,              /* the size of the checksum in bits, here and below; 16 bytes of entropy */
    TW_P1_MNEMONIC_15_WORDS = 0x05,              /* 20 bytes of entropy */
    TW_P1_MNEMONIC_18_WORDS = 0x06,              /* 24 bytes of entropy */
    TW_P1_MNEMONIC_21_WORDS = 0x07,              /* 28 bytes of entropy */
    TW_P1_MNEMONIC_24_WORDS = 0x08               /* 32 bytes of entropy */
};

/* P2, a choice for EXPORT alone. For other commands it is 00. */
enum {
    TW_P2_EXPORT_PRIVATE_AND_PUBLIC = 0x00,
    TW_P2_EXPORT_PUBLIC_ONLY = 0x01
};

/* Stages of the secure channel. */
enum tw_stage {
    TW_STAGE_CLOSED = 0,
    TW_STAGE_OPENED = 1,
    TW_STAGE_MUTUAL = 2 /* mutually authenticated */
};

/* Kinds of the card's key. */
enum tw_key_kind {
    TW_KEY_NONE = 0,
    TW_KEY_PLAIN = 1,
    TW_KEY_EXTENDED = 2
};

/* A card. It is made of bytes alone, so it has no padding and may lie at any address. Any TW_CARD_BYTES bytes may be given; those
   that are no sound card are refused with TW_UNSOUND. A flag is 0 or 1. PIN, PUK and keys are in it as they are. */
typedef struct tw_slot {
    uint8_t filled;            /* flag */
    uint8_t key[TW_KEY_BYTES]; /* pairing key, zero in a free slot */
} tw_slot;

typedef struct tw_path {
    uint8_t len;                      /* bytes in use, 4 a component, at most TW_PATH_MAX_BYTES */
    uint8_t bytes[TW_PATH_MAX_BYTES]; /* high byte of a component first, zero past the end */
} tw_path;

typedef struct tw_tap_record {
    uint8_t len;                     /* bytes in use, at most TW_TAP_MAX_BYTES; 0 where none was set */
    uint8_t bytes[TW_TAP_MAX_BYTES]; /* the first two, high byte first, are len less 2; zero past the end */
} tw_tap_record;

typedef struct tw_card {
    uint8_t initialised; /* flag: 1 after INIT */
    uint8_t uid[TW_UID_BYTES];
    uint8_t public_key[TW_PUBLIC_KEY_BYTES];
    uint8_t pin[TW_PIN_BYTES];      /* digits, 0x30 to 0x39 */
    uint8_t puk[TW_PUK_BYTES];      /* digits, 0x30 to 0x39 */
    uint8_t pin_tries;              /* tries left, at most TW_PIN_TRIES */
    uint8_t puk_tries;              /* tries left, at most TW_PUK_TRIES */
    uint8_t verified;               /* flag: the PIN is verified; only in stage 2 */
    uint8_t secret[TW_KEY_BYTES];   /* pairing secret */
    tw_slot slots[TW_SLOTS];
    uint8_t pending;                /* flag: a first step of PAIR waits for its second */
    uint8_t expected[TW_KEY_BYTES]; /* client cryptogram expected, zero where none is pending */
    uint8_t key_kind;               /* TW_KEY_.. */
    uint8_t key_uid[TW_KEY_BYTES];  /* zero without a key */
    tw_path current;                /* current path */
    tw_path pinless;                /* PIN-less path */
    uint8_t stage;                  /* TW_STAGE_.. */
    uint8_t enc_key[TW_KEY_BYTES];  /* the channel's, zero in stage 0 */
    uint8_t mac_key[TW_KEY_BYTES];  /* the channel's, zero in stage 0 */
    uint8_t iv[TW_IV_BYTES];        /* the channel's, zero in stage 0 */
    tw_tap_record tap;              /* the card's own tap record */
} tw_card;

/* The terminal's end of the channel: both keys, and the IV of the next message. Bytes alone, as a card; any bytes of its length are a
   session. */
typedef struct tw_session {
    uint8_t enc_key[TW_KEY_BYTES];
    uint8_t mac_key[TW_KEY_BYTES];
    uint8_t iv[TW_IV_BYTES];
} tw_session;

/* What ASK reports. */
typedef struct tw_asked {
    uint8_t refusal; /* TW_DONE or the refusal's number */
    uint8_t kind;    /* TW_SUPPLY_.. */
    size_t count;    /* bytes written from the buffer's start */
} tw_asked;

/* What ANSWER reports. */
typedef struct tw_answered {
    uint8_t refusal;     /* TW_DONE or the refusal's number */
    size_t count;        /* bytes written from the buffer's start */
    size_t fault_offset; /* bytes of opened data before the tag of the faulty field; TW_NO_FAULT where there is none */
} tw_answered;

/* What WALK reports. */
typedef struct tw_walked {
    uint8_t refusal;     /* TW_DONE, TW_MALFORMED or TW_TOO_DEEP */
    size_t count;        /* fields that are not templates */
    size_t fault_offset; /* bytes of input before the tag of the faulty field; 0 where the call is not refused */
} tw_walked;

/* What SEAL, UNSEAL, WRITE and ENTROPY report. */
typedef struct tw_told {
    uint8_t refusal; /* TW_DONE or the refusal's number */
    size_t count;    /* bytes written from the buffer's start */
} tw_told;

/* What the tap read gives: the part of length bytes from offset on, in the stored record or in the factory record. */
typedef struct tw_tapped {
    uint8_t refusal; /* TW_DONE or TW_NOT_RECORD */
    uint8_t source;  /* TW_TAP_.. */
    size_t offset;   /* bytes before the part; 0 in the factory record */
    size_t length;   /* bytes of the part */
} tw_tapped;

TW_CHECK(sizeof(tw_card) == TW_CARD_BYTES, "the length of a card");
TW_CHECK(sizeof(tw_slot) == TW_SLOT_BYTES && offsetof(tw_slot, key) == 1, "the length of a slot");
TW_CHECK(sizeof(tw_path) == TW_PATH_BYTES && offsetof(tw_path, bytes) == 1, "the length of a path");
TW_CHECK(sizeof(tw_tap_record) == TW_TAP_BYTES && offsetof(tw_tap_record, bytes) == 1, "the length of a tap record");
TW_CHECK(sizeof(tw_session) == TW_SESSION_BYTES, "the length of a session");
TW_CHECK(offsetof(tw_session, mac_key) == TW_KEY_BYTES, "mac_key after enc_key");
TW_CHECK(offsetof(tw_session, iv) == TW_KEY_BYTES + TW_KEY_BYTES, "iv after both keys");
TW_CHECK(offsetof(tw_card, initialised) == TW_AT_INITIALISED, "where initialised begins");
TW_CHECK(offsetof(tw_card, uid) == TW_AT_UID, "where uid begins");
TW_CHECK(offsetof(tw_card, public_key) == TW_AT_PUBLIC_KEY, "where public_key begins");
TW_CHECK(offsetof(tw_card, pin) == TW_AT_PIN, "where pin begins");
TW_CHECK(offsetof(tw_card, puk) == TW_AT_PUK, "where puk begins");
TW_CHECK(offsetof(tw_card, pin_tries) == TW_AT_PIN_TRIES, "where pin_tries begins");
TW_CHECK(offsetof(tw_card, puk_tries) == TW_AT_PUK_TRIES, "where puk_tries begins");
TW_CHECK(offsetof(tw_card, verified) == TW_AT_VERIFIED, "where verified begins");
TW_CHECK(offsetof(tw_card, secret) == TW_AT_SECRET, "where secret begins");
TW_CHECK(offsetof(tw_card, slots) == TW_AT_SLOTS, "where slots begins");
TW_CHECK(offsetof(tw_card, pending) == TW_AT_PENDING, "where pending begins");
TW_CHECK(offsetof(tw_card, expected) == TW_AT_EXPECTED, "where expected begins");
TW_CHECK(offsetof(tw_card, key_kind) == TW_AT_KEY_KIND, "where key_kind begins");
TW_CHECK(offsetof(tw_card, key_uid) == TW_AT_KEY_UID, "where key_uid begins");
TW_CHECK(offsetof(tw_card, current) == TW_AT_CURRENT, "where current begins");
TW_CHECK(offsetof(tw_card, pinless) == TW_AT_PINLESS, "where pinless begins");
TW_CHECK(offsetof(tw_card, stage) == TW_AT_STAGE, "where stage begins");
TW_CHECK(offsetof(tw_card, enc_key) == TW_AT_ENC_KEY, "where enc_key begins");
TW_CHECK(offsetof(tw_card, mac_key) == TW_AT_MAC_KEY, "where mac_key begins");
TW_CHECK(offsetof(tw_card, iv) == TW_AT_IV, "where iv begins");
TW_CHECK(offsetof(tw_card, tap) == TW_AT_TAP, "where tap begins");
TW_CHECK(sizeof(size_t) == 8, "a length has 8 bytes");
TW_CHECK(sizeof(tw_asked) == 16 && offsetof(tw_asked, kind) == 1 && offsetof(tw_asked, count) == 8, "ASK's report has 16 bytes");
TW_CHECK(sizeof(tw_answered) == 24 && offsetof(tw_answered, refusal) == 0, "ANSWER's report has 24 bytes");
TW_CHECK(offsetof(tw_answered, count) == 8 && offsetof(tw_answered, fault_offset) == 16, "count and offset of ANSWER's report");
TW_CHECK(sizeof(tw_walked) == 24 && offsetof(tw_walked, refusal) == 0, "WALK's report has 24 bytes");
TW_CHECK(offsetof(tw_walked, count) == 8 && offsetof(tw_walked, fault_offset) == 16, "count and offset of WALK's report");
TW_CHECK(sizeof(tw_told) == 16 && offsetof(tw_told, count) == 8, "a report has 16 bytes");
TW_CHECK(sizeof(tw_tapped) == 24 && offsetof(tw_tapped, source) == 1, "the tap read's report has 24 bytes");
TW_CHECK(offsetof(tw_tapped, offset) == 8 && offsetof(tw_tapped, length) == 16, "offset and length of the tap read's report");
TW_CHECK(TW_TAP_MAX_BYTES == TW_DATA_MAX_BYTES, "the longest tap record is the most data");
TW_CHECK(TW_NO_FAULT >= TW_DATA_MAX_BYTES, "no offset of opened data is TW_NO_FAULT");
#undef TW_CHECK

/* FRESH: the card becomes that of a new device. What *card held is not read. It has no refusal.
   The caller ensures:
   - card: TW_CARD_BYTES bytes, valid to write, overlapping no other argument, and used by no other thread during the call;
   - uid: TW_UID_BYTES bytes, valid to read, and written by no one during the call;
   - public_key: TW_PUBLIC_KEY_BYTES bytes, valid to read, and written by no one during the call;
   - no pointer is null. */
void tw_fresh(tw_card *card, const uint8_t *uid, const uint8_t *public_key);

/* 1 if the card is sound, else 0. The card is only read.
   The caller ensures:
   - card: TW_CARD_BYTES bytes, valid to read, and written by no one during the call;
   - no pointer is null. */
uint8_t tw_sound(const tw_card *card);

/* RESET: power-up. Gives the refusal: TW_DONE or TW_UNSOUND. Resetting twice is resetting once: a second call gives the same refusal and
   changes no byte of the card.
   The caller ensures:
   - card: TW_CARD_BYTES bytes, valid to read and write, and used by no other thread during the call;
   - no pointer is null. */
uint8_t tw_reset(tw_card *card);

/* ASK: which supply ANSWER will read for this command, with the command's opened data from the buffer's start. The card is only read.
   Refusals: TW_UNSOUND, TW_ROOM (buf_bytes under 255). Where ANSWER reads no supply, kind and count are 0.
   The caller ensures:
   - card: TW_CARD_BYTES bytes, valid to read, and written by no one during the call;
   - cmd: cmd_bytes bytes, valid to read, and written by no one during the call;
   - buf: buf_bytes bytes, valid to read and write, overlapping no other argument, and used by no other thread during the call;
   - no pointer is null but beside a length of 0, and each length is under 2^63. */
tw_asked tw_ask(const tw_card *card, const uint8_t *cmd, size_t cmd_bytes, uint8_t *buf, size_t buf_bytes);

/* ANSWER: the card becomes the next card; response data and status word from the buffer's start. A sealed response is MAC, ciphertext and
   9000; Lr, in its MAC, counts MAC and ciphertext, in bytes.
   Refusals: TW_UNSOUND, TW_ROOM (buf_bytes under 258), TW_BAD_SUPPLY. The supply is read only where ASK names a kind; else it may have any
   length, 0 too.
   The fault offset is for whoever looks for the error in a key: where LOAD with P1 01 or 02 gives 6A80 because its data is no sequence of
   fields, or too deep, it is what WALK of the opened data tells: bytes from the start of the opened data (not of the command) to the tag of
   the faulty field, 0 to 222. Everywhere else it is TW_NO_FAULT: for success, for a LOAD whose fields are whole but are not those of a key, for
   P1 03, for every other command, and for a refused call. Response and card are the same with it and without it.
   The caller ensures:
   - card: TW_CARD_BYTES bytes, valid to read and write, overlapping no other argument, and used by no other thread during the call;
   - cmd: cmd_bytes bytes, valid to read, and written by no one during the call;
   - supply: supply_bytes bytes, valid to read, and written by no one during the call;
   - buf: buf_bytes bytes, valid to read and write, overlapping no other argument, and used by no other thread during the call;
   - no pointer is null but beside a length of 0, and each length is under 2^63. */
tw_answered tw_answer(tw_card *card, const uint8_t *cmd, size_t cmd_bytes, const uint8_t *supply, size_t supply_bytes, uint8_t *buf,
                      size_t buf_bytes);

/* SEAL: the session becomes the next session; the whole sealed command from the buffer's start, 37 to 245 bytes. header: CLA INS P1 P2.
   Refusals: TW_ROOM (buf_bytes under 261), TW_TOO_LONG (data_bytes over 223).
   The caller ensures:
   - session: TW_SESSION_BYTES bytes, valid to read and write, overlapping no other argument, and used by no other thread during the call;
   - header: 4 bytes, valid to read, and written by no one during the call;
   - data: data_bytes bytes, valid to read, and written by no one during the call;
   - buf: buf_bytes bytes, valid to read and write, overlapping no other argument, and used by no other thread during the call;
   - no pointer is null but beside a length of 0, and each length is under 2^63. */
tw_told tw_seal(tw_session *session, const uint8_t *header, const uint8_t *data, size_t data_bytes, uint8_t *buf, size_t buf_bytes);

/* UNSEAL: the session becomes the next session; the response's plaintext, inner status word included, from the buffer's start, 2 to 223
   bytes. Refusals: TW_ROOM (buf_bytes under 223), TW_NOT_GENUINE. Lr, in the response's MAC, counts MAC and ciphertext, in bytes; cards of
   version 0.1.0 left the MAC out, and their sealed responses are not genuine here.
   The caller ensures:
   - session: TW_SESSION_BYTES bytes, valid to read and write, overlapping no other argument, and used by no other thread during the call;
   - response: response_bytes bytes, valid to read, and written by no one during the call;
   - buf: buf_bytes bytes, valid to read and write, overlapping no other argument, and used by no other thread during the call;
   - no pointer is null but beside a length of 0, and each length is under 2^63. */
tw_told tw_unseal(tw_session *session, const uint8_t *response, size_t response_bytes, uint8_t *buf, size_t buf_bytes);

/* WALK: how many fields that are not templates the input holds; the count is in fields. Templates are read to depth 4, input of any
   length. Refusals: TW_MALFORMED, TW_TOO_DEEP, by the first fault from left to right. The fault offset is then in bytes, from the input's
   start to the tag of the faulty field: the one whose length is cut off or badly formed, or whose end lies beyond its template or the
   input, or that is a template at depth 5. Inside a template it is the inner field's tag. It may be any number under input_bytes, over 255
   too. Where the call is not refused it is 0, which means nothing: look at the refusal first.
   Parts that it accepts, joined, count the sum of their fields. Long input may therefore be cut between two fields at the top.
   The caller ensures:
   - input: input_bytes bytes, valid to read, and written by no one during the call;
   - the pointer is not null unless the length is 0, and the length is under 2^63. */
tw_walked tw_walk(const uint8_t *input, size_t input_bytes);

/* ENTROPY: from the numbers of a recovery phrase's words back to its entropy (BIP 39), for the terminal. words is what GENERATE MNEMONIC
   answers without the status word: 12, 15, 18, 21 or 24 numbers of 2 bytes, the high byte first. The entropy is written from the buffer's
   start, 16, 20, 24, 28 or 32 bytes; bytes past it stay. It needs no card, no session and no list of words. The two undo each other: of
   what GENERATE MNEMONIC answers, ENTROPY gives the entropy that the host supplied; and from what ENTROPY gives, GENERATE MNEMONIC makes
   the same words again.
   Refusals, in this order: TW_ROOM (buf_bytes under 32, however few the words), TW_WRONG_COUNT (words_bytes is not 24, 30, 36, 42 or 48),
   TW_NUMBER_TOO_LARGE (a number is over 2047), TW_WRONG_CHECKSUM (the bits after the entropy are not the first of its SHA-256: a word was
   copied wrongly, or two have changed places).
   Words and entropy are secrets: whoever has either of them has the wallet. The call leaves pieces of the entropy on the stack, which
   tw_wipe_stack wipes; tw_wipe is for words and buffer.
   The caller ensures:
   - words: words_bytes bytes, valid to read, and written by no one during the call;
   - buf: buf_bytes bytes, valid to read and write, overlapping no other argument, and used by no other thread during the call;
   - no pointer is null but beside a length of 0, and each length is under 2^63. */
tw_told tw_entropy(const uint8_t *words, size_t words_bytes, uint8_t *buf, size_t buf_bytes);

/* WRITE: the card's stored record from the buffer's start: TW_RECORD_FRESH_BYTES bytes before INIT, TW_RECORD_MIN_BYTES to
   TW_RECORD_MAX_BYTES after it. After INIT it has all 8 slots, and the field of the tap record, also where that is empty. The card is
   only read.
   Refusals: TW_UNSOUND, TW_ROOM (buf_bytes under TW_WRITE_ROOM_BYTES, also before INIT).
   The caller ensures:
   - card: TW_CARD_BYTES bytes, valid to read, and written by no one during the call;
   - buf: buf_bytes bytes, valid to read and write, overlapping no other argument, and used by no other thread during the call;
   - no pointer is null but beside a length of 0, and the length is under 2^63. */
tw_told tw_write(const tw_card *card, uint8_t *buf, size_t buf_bytes);

/* READ: the card becomes that of the stored record, sound and reset; refused, it becomes FRESH of zeros. What *card held is not read.
   Gives the refusal: TW_DONE or TW_NOT_RECORD. Older records are taken too: one with 5 slots is that of a card whose slots 5 to 7 are free,
   and one without the field of the tap record that of a card with none. WRITE then writes it with 8 slots and with the field.
   The caller ensures:
   - card: TW_CARD_BYTES bytes, valid to write, overlapping no other argument, and used by no other thread during the call;
   - record: record_bytes bytes, valid to read, and written by no one during the call;
   - no pointer is null but beside a length of 0, and the length is under 2^63. */
uint8_t tw_read(tw_card *card, const uint8_t *record, size_t record_bytes);

/* The tap read: which bytes a phone is to read when the card is held to it. Where the stored record has the card's own tap record, they are
   its bytes inside record, at whichever offset its form has them: source TW_TAP_RECORD. Where READ takes the record and it has none (the
   field is empty or missing, or it is a record before INIT), they are the whole of factory: source TW_TAP_FACTORY, offset 0, length
   factory_bytes. The bytes of factory are not looked at, and may be none. It needs no card and no buffer, and writes nothing.
   Refusal: TW_NOT_RECORD, exactly where READ refuses the record. Then source is TW_TAP_NONE, and offset and length are 0.
   The caller ensures:
   - record: record_bytes bytes, valid to read, and written by no one during the call;
   - factory: factory_bytes bytes, valid to read, and written by no one during the call;
   - no pointer is null but beside a length of 0, and each length is under 2^63. */
tw_tapped tw_tap(const uint8_t *record, size_t record_bytes, const uint8_t *factory, size_t factory_bytes);

/* Data in AES-256 CBC may be cut. This library has no function for CBC alone; the library aes_c has: tw_cbc_encrypt and tw_cbc_decrypt of
   crates/aes_c/src/lib.rt, with a key of 32 bytes, an IV of 16 bytes, and the data in place, a multiple of 16 bytes. Callers may cut data
   after any multiple of 16 bytes and do the parts one after the other: together they give the bytes of one call over the whole. The IV of
   a part is the last 16 bytes of ciphertext before it, or the first IV where no bytes are before it. When decrypting, that is the
   ciphertext as it was read: keep those 16 bytes before they are decrypted in place. Padding is added once, to the whole. docs/RULES.md,
   7.6, has an example. */

/* The two functions that follow are C, not part of the library, and not proved. */

/* Overwrites memory with zeros, also where nobody reads it afterwards: for a card, session, command, supply, recovery phrase or buffer that
   held a secret and is needed no more.
   The caller ensures:
   - memory: that many bytes, valid to write, and used by no other thread during the call;
   - the pointer is not null unless the length is 0. */
static inline void tw_wipe(void *memory, size_t bytes)
{
#ifdef __cplusplus
    volatile uint8_t *const at = static_cast<volatile uint8_t *>(memory);
#else
    volatile uint8_t *const at = (volatile uint8_t *)memory;
#endif
    for (size_t k = 0; k < bytes; k++) {
        at[k] = 0;
    }
}

/* Overwrites the stack below the caller's frame with zeros, TW_STACK_WIPE_BYTES bytes of it: what the functions above leave there, PIN, PUK,
   keys and entropy among it. Call it after them, once after the last of several too, from the function that called them, or from one that
   called that function, if the frame between is under 8,000 bytes.
   What it does not reach: the caller's own frame and all that lies above it, registers, other memory and copies in it, and pages that
   the system has written to disk.
   The caller ensures that the thread's stack has room for TW_STACK_WIPE_BYTES bytes more. It is touched page by page downwards, so that a
   stack that is too small ends at its guard page.
   With GCC and Clang for x86-64 it begins at the stack pointer, so that no byte is left out where the compiler gives it no frame of its own;
   a stack protector for all functions may give it one. The block is in AT&T syntax. For another compiler or processor, or where
   TW_WIPE_STACK_IN_C is defined, it is an array of that length in a frame of its own; between the caller's frame and the array some
   bytes may then stay. */
#if defined(__GNUC__) && defined(__x86_64__) && !defined(TW_WIPE_STACK_IN_C)
__attribute__((__noinline__, __unused__)) static void tw_wipe_stack(void)
{
    __asm__ volatile("movl %0, %%ecx\n"
                     "1:\tsubq %1, %%rsp\n\t"
                     "movq $0, (%%rsp)\n\t"
                     "decl %%ecx\n\t"
                     "jnz 1b\n\t"
                     "movq %%rsp, %%rdi\n\t"
                     "xorl %%eax, %%eax\n\t"
                     "movl %2, %%ecx\n\t"
                     "rep stosq\n\t"
                     "addq %3, %%rsp"
                     :
                     : "i"(TW_STACK_WIPE_BYTES / TW_PAGE_BYTES), "i"(TW_PAGE_BYTES), "i"(TW_STACK_WIPE_BYTES / 8), "i"(TW_STACK_WIPE_BYTES)
                     : "rax", "rcx", "rdi", "cc", "memory");
}
#else
static inline void tw_wipe_frame(void)
{
    volatile uint8_t frame[TW_STACK_WIPE_BYTES];
    for (size_t k = sizeof frame; k > 0; k--) {
        frame[k - 1] = 0;
    }
}

static inline void tw_wipe_stack(void)
{
    void (*volatile wipe_frame)(void) = tw_wipe_frame; /* volatile: the call gets a frame of its own */
    wipe_frame();
}
#endif

#ifdef __cplusplus
}
#endif

#endif
