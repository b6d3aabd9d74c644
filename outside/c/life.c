/* One card's life through include/treadlewisp.h, with all twelve operations: from FRESH over INIT, PAIR, OPEN and MUTUAL to PIN, PUK, its tap
   record, keys, signatures and exported keys, its eight slots, its stored record, its refusals and templates, the place of a fault in LOAD's
   data (life_faults.h), and recovery phrases (life_phrases.h). The life is played once for each placing of memory (life_places.h), and what
   holds of every call is checked at every call (life_calls.h). The client hashes for itself (life_hash.h). Exit status 0: every answer was
   the one that the rules give. Lengths are in bytes. */
#include "life_calls.h"
#include "life_faults.h"
#include "life_hash.h"
#include "life_phrases.h"
#include "life_places.h"

#include <stdio.h>
#include <string.h>

enum {
    INIT_DATA_BYTES = 146,
    LC_BYTES = 1,
    SEED_BYTES = 64,
    HASH_BYTES = 32
};

static const char PIN[] = "024680";
static const char WRONG_PIN[] = "024681";
static const char PUK[] = "918273645546";
static const uint8_t TWO_COMPONENTS[] = {0x80, 0x00, 0x00, 0x2C, 0x00, 0x00, 0x00, 0x07};
/* m/43'/60'/1581', from which on down EXPORT gives a private key. */
static const uint8_t CHAT_NODE[] = {0x80, 0x00, 0x00, 0x2B, 0x80, 0x00, 0x00, 0x3C, 0x80, 0x00, 0x06, 0x2D};

/* A tap record: two bytes that count the message after them, 16 bytes, and the message, the address of a page. */
static const uint8_t TAP[] = {0x00, 0x10, 0xD1, 0x01, 0x0C, 0x55, 0x04, 'e', 'x', 'a', 'm', 'p', 'l', 'e', '.', 'c', 'o', 'm'};
/* What every card of a maker tells, until it has its own: here an empty message of 3 bytes. */
static const uint8_t FACTORY[] = {0x00, 0x03, 0xD0, 0x00, 0x00};

/* The card, and the terminal's end of its channel. */
static tw_card *card;
static tw_session *terminal;
/* What the client knows of the pairing secret: a key of this byte. */
static uint8_t secret_byte;

static text key(uint8_t value)
{
    return filled(value, TW_KEY_BYTES);
}

static text point(void)
{
    return filled(0x04, TW_PUBLIC_KEY_BYTES);
}

/* What the client makes of the pairing secret and these 32 bytes after it. */
static text paired(text after)
{
    return hashed_with(key(secret_byte), after);
}

static text path(void)
{
    return text_of(TWO_COMPONENTS, sizeof TWO_COMPONENTS);
}

/* ASK names this kind with these data; then ANSWER gives this answer. */
static void plain(const char *step, text command, unsigned kind, text data, text supply, text answer)
{
    about(step);
    unsigned found_kind;
    text wrote;
    expect(call_ask(card, command, TW_ASK_ROOM_BYTES, &found_kind, &wrote) == TW_DONE, "ASK is refused");
    expect(found_kind == kind, "ASK's kind");
    expect(same(wrote, data), "ASK's data");
    expect(call_answer(card, command, supply, TW_ANSWER_ROOM_BYTES, &wrote) == TW_DONE, "ANSWER is refused");
    expect(same(wrote, answer), "the answer");
}

/* The same for a command that reads no supply and answers a status word alone. */
static void plain_status(const char *step, text command, unsigned word)
{
    plain(step, command, TW_SUPPLY_NONE, none(), none(), status(word));
}

/* A command over the channel, from SEAL to UNSEAL: ASK names this kind, the answer's plaintext is this one. */
static void sealed_p2(const char *step, unsigned ins, unsigned p1, unsigned p2, text data, unsigned kind, text supply, text answer)
{
    about(step);
    unsigned found_kind;
    text command, wrote, opened;
    const size_t field_bytes = TW_MAC_BYTES + (data.count / 16 + 1) * 16;
    expect(call_seal(terminal, ins, p1, p2, data, TW_SEAL_ROOM_BYTES, &command) == TW_DONE, "SEAL is refused");
    expect(command.count == TW_HEADER_BYTES + LC_BYTES + field_bytes && command.bytes[4] == field_bytes, "SEAL's length");
    expect(memcmp(terminal->iv, command.bytes + 5, TW_IV_BYTES) == 0, "SEAL's next IV is its MAC");
    expect(call_ask(card, command, TW_ASK_ROOM_BYTES, &found_kind, &opened) == TW_DONE, "ASK is refused");
    expect(found_kind == kind, "ASK's kind");
    expect(same(opened, kind == TW_SUPPLY_NONE ? none() : data), "ASK's data");
    expect(call_answer(card, command, supply, TW_ANSWER_ROOM_BYTES, &wrote) == TW_DONE, "ANSWER is refused");
    expect(wrote.count == TW_MAC_BYTES + (answer.count / 16 + 1) * 16 + TW_STATUS_BYTES, "the sealed answer's length");
    expect(call_unseal(terminal, wrote, TW_UNSEAL_ROOM_BYTES, &opened) == TW_DONE, "UNSEAL is refused");
    expect(same(opened, answer), "the answer");
    expect(memcmp(terminal->iv, card->iv, TW_IV_BYTES) == 0, "both ends hold the same IV");
}

/* The same for a command whose P2 is 00. */
static void sealed(const char *step, unsigned ins, unsigned p1, text data, unsigned kind, text supply, text answer)
{
    sealed_p2(step, ins, p1, 0, data, kind, supply, answer);
}

static void sealed_status(const char *step, unsigned ins, unsigned p1, text data, unsigned word)
{
    sealed(step, ins, p1, data, TW_SUPPLY_NONE, none(), status(word));
}

/* A card of FF: every operation on it is refused with 1, whatever the room. */
static void unsound_card(void)
{
    about("a card that is not sound");
    unsigned kind;
    text wrote;
    memset(card, 0xFF, sizeof *card);
    expect(tw_sound(card) == 0, "soundness");
    expect(call_reset(card) == TW_UNSOUND, "RESET");
    expect(call_ask(card, none(), TW_ASK_ROOM_BYTES, &kind, &wrote) == TW_UNSOUND, "ASK");
    expect(call_ask(card, none(), 0, &kind, &wrote) == TW_UNSOUND, "ASK without room");
    expect(call_answer(card, none(), none(), TW_ANSWER_ROOM_BYTES, &wrote) == TW_UNSOUND, "ANSWER");
    expect(call_answer(card, none(), none(), 0, &wrote) == TW_UNSOUND, "ANSWER without room");
    expect(call_write(card, TW_WRITE_ROOM_BYTES, &wrote) == TW_UNSOUND, "WRITE");
}

static text select_command(void)
{
    return plain_command(TW_CLASS_SELECT, TW_INS_SELECT, TW_P1_SELECT, words("StatusWalletApp"));
}

static void fresh_card(void)
{
    about("FRESH");
    const size_t mark = places_mark();
    uint8_t *uid = place(TW_UID_BYTES, 0x11);
    uint8_t *public_key = place(TW_PUBLIC_KEY_BYTES, 0x04);
    tw_fresh(card, uid, public_key);
    expect(places_intact(), "bytes beside an argument were changed");
    places_release(mark);
    expect(tw_sound(card) == 1 && card->initialised == 0, "a sound card before INIT");
    expect(card->uid[15] == 0x11 && card->public_key[64] == 0x04, "UID and public key");
    const tw_card zeros = {0};
    expect(memcmp(card->pin, zeros.pin, sizeof *card - offsetof(tw_card, pin)) == 0, "all else zero");
    expect(call_reset(card) == TW_DONE, "RESET");

    const text head = text_of((const uint8_t[]){0x80, TW_PUBLIC_KEY_BYTES}, 2);
    plain("SELECT before INIT", select_command(), TW_SUPPLY_NONE, none(), none(), joined(joined(head, point()), status(TW_SW_SUCCESS)));
    plain_status("GET STATUS before INIT", plain_command(TW_CLASS_CARD, TW_INS_GET_STATUS, 0, none()), TW_SW_UNKNOWN_INSTRUCTION);
    plain_status("GENERATE MNEMONIC before INIT", plain_command(TW_CLASS_CARD, TW_INS_GENERATE_MNEMONIC, TW_P1_MNEMONIC_12_WORDS, none()),
                 TW_SW_UNKNOWN_INSTRUCTION);
    plain_status("a class that is not there", plain_command(0x90, 0x00, 0, none()), TW_SW_UNKNOWN_CLASS);
    plain_status("a command of no bytes", none(), TW_SW_WRONG_LENGTH);
    plain_status("a command of 3 bytes", filled(0x80, 3), TW_SW_WRONG_LENGTH);
    plain_status("another application", plain_command(TW_CLASS_SELECT, TW_INS_SELECT, TW_P1_SELECT, words("Other")), TW_SW_NOT_FOUND);
}

/* The tap read of the card's record: its own tap record where it has one, else the factory's; and of the record without field 34, which has
   none, and of bytes that are no record. */
static void tapped(text record)
{
    const text factory = text_of(FACTORY, sizeof FACTORY), own = text_of(card->tap.bytes, card->tap.len);
    const size_t field_bytes = card->initialised == 1 ? TW_FIELD_HEAD_BYTES + own.count : 0;
    unsigned source;
    text part;
    expect(call_tap(record, factory, &source, &part) == TW_DONE, "the tap read is refused");
    expect(source == (own.count > 0 ? TW_TAP_RECORD : TW_TAP_FACTORY), "where its part lies");
    expect(same(part, own.count > 0 ? own : factory), "its part");
    expect(call_tap(text_of(record.bytes, record.count - field_bytes), factory, &source, &part) == TW_DONE, "of a record without it");
    expect(source == TW_TAP_FACTORY && same(part, factory), "its part, of a record without it");
    expect(call_tap(text_of(record.bytes, record.count - field_bytes), none(), &source, &part) == TW_DONE, "with an empty factory record");
    expect(source == TW_TAP_FACTORY && part.count == 0, "its part, an empty factory record");
    expect(call_tap(text_of(record.bytes, record.count - 1), factory, &source, &part) == TW_NOT_RECORD, "of a part");
    expect(call_tap(joined(record, byte(0x34)), factory, &source, &part) == TW_NOT_RECORD, "of a byte more");
    expect(call_tap(none(), factory, &source, &part) == TW_NOT_RECORD, "of nothing");
}

/* WRITE and READ: a card like *card as after RESET; a cut or longer record is refused, and leaves FRESH of zeros. */
static void stored(const char *step, size_t record_bytes)
{
    about(step);
    text record;
    expect(call_write(card, TW_WRITE_ROOM_BYTES - 1, &record) == TW_ROOM, "WRITE in a small buffer");
    expect(call_write(card, TW_WRITE_ROOM_BYTES, &record) == TW_DONE, "WRITE is refused");
    expect(record.count == record_bytes, "the record's length");
    const size_t mark = places_mark();
    tw_card *again = (tw_card *)place(sizeof *again, 0x33);
    expect(call_read(again, record) == TW_DONE, "READ is refused");
    tw_card after_reset = *card;
    expect(call_reset(&after_reset) == TW_DONE, "RESET is refused");
    expect(memcmp(again, &after_reset, sizeof *again) == 0, "READ's card");
    const tw_card zeros = {0};
    text wrong = record;
    wrong.count--;
    expect(call_read(again, wrong) == TW_NOT_RECORD && memcmp(again, &zeros, sizeof zeros) == 0, "READ of a part");
    expect(call_read(again, joined(record, byte(0))) == TW_NOT_RECORD, "READ of a byte more");
    expect(call_read(again, none()) == TW_NOT_RECORD, "READ of nothing");
    places_release(mark);
    tapped(record);
}

/* INIT's data. Its ciphertext is that of SEAL with the same AES key and IV: both pad and encipher the same way. */
static text init_data(void)
{
    tw_session sealing;
    text command;
    memset(&sealing, 0x81, sizeof sealing);
    secret_byte = 0x51;
    const text content = joined(joined(words(PIN), words(PUK)), key(secret_byte));
    expect(call_seal(&sealing, TW_INS_INIT, 0, 0, content, TW_SEAL_ROOM_BYTES, &command) == TW_DONE, "SEAL is refused");
    const text ciphertext = text_of(command.bytes + TW_HEADER_BYTES + LC_BYTES + TW_MAC_BYTES, 64);
    return joined(joined(byte(TW_PUBLIC_KEY_BYTES), point()), joined(filled(0x81, TW_IV_BYTES), ciphertext));
}

static void init_card(void)
{
    about("INIT");
    const text data = init_data();
    const text init = plain_command(TW_CLASS_CARD, TW_INS_INIT, 0, data);
    const text right = joined(byte(1), key(0x81));
    text wrote;
    expect(data.count == INIT_DATA_BYTES, "its data");
    expect(call_answer(card, init, none(), TW_ANSWER_ROOM_BYTES, &wrote) == TW_BAD_SUPPLY, "no supply");
    expect(call_answer(card, init, byte(0), TW_ANSWER_ROOM_BYTES, &wrote) == TW_BAD_SUPPLY, "a flag alone");
    expect(call_answer(card, init, joined(right, byte(0)), TW_ANSWER_ROOM_BYTES, &wrote) == TW_BAD_SUPPLY, "a byte more");
    expect(call_answer(card, init, filled(2, TW_SUPPLY_INIT_BYTES), TW_ANSWER_ROOM_BYTES, &wrote) == TW_BAD_SUPPLY, "flag 02");
    expect(call_answer(card, init, right, TW_ANSWER_ROOM_BYTES - 1, &wrote) == TW_ROOM, "a small buffer");
    plain("INIT with flag 00", init, TW_SUPPLY_INIT, data, filled(0, TW_SUPPLY_INIT_BYTES), status(TW_SW_WRONG_DATA));
    expect(card->initialised == 0, "before INIT still");
    plain("INIT", init, TW_SUPPLY_INIT, data, right, status(TW_SW_SUCCESS));
    expect(card->initialised == 1 && card->pin_tries == TW_PIN_TRIES && card->puk_tries == TW_PUK_TRIES, "tries");
    expect(memcmp(card->pin, PIN, TW_PIN_BYTES) == 0 && memcmp(card->puk, PUK, TW_PUK_BYTES) == 0, "PIN and PUK");
    expect(same(text_of(card->secret, TW_KEY_BYTES), key(secret_byte)), "pairing secret");
    plain_status("INIT again", init, TW_SW_UNKNOWN_INSTRUCTION);
    plain_status("GET STATUS without a channel", plain_command(TW_CLASS_CARD, TW_INS_GET_STATUS, 0, none()), TW_SW_CONDITIONS_NOT_MET);
    plain_status("GENERATE MNEMONIC without a channel",
                 plain_command(TW_CLASS_CARD, TW_INS_GENERATE_MNEMONIC, TW_P1_MNEMONIC_12_WORDS, none()), TW_SW_CONDITIONS_NOT_MET);
    plain_status("OPEN of a free slot", plain_command(TW_CLASS_CARD, TW_INS_OPEN, 0, point()), TW_SW_WRONG_PARAMETERS);
}

static text pair_first(void)
{
    return plain_command(TW_CLASS_CARD, TW_INS_PAIR, TW_P1_PAIR_FIRST, key(0x0F));
}

/* The supply is the card's challenge alone; the card answers its cryptogram, which the client compares with its own hash. */
static void pair_step_one(const char *step)
{
    const text challenge = key(0x93);
    plain(step, pair_first(), TW_SUPPLY_PAIR_FIRST, key(0x0F), challenge,
          joined(joined(paired(key(0x0F)), challenge), status(TW_SW_SUCCESS)));
    expect(card->pending == 1, "pending");
    expect(same(text_of(card->expected, TW_KEY_BYTES), paired(challenge)), "the client's cryptogram is expected");
}

/* The supply is a salt of this byte alone: the slot with this index is filled with the key of secret and salt, and the one after it, if there
   is one, is free. */
static void pair_step_two(const char *step, unsigned index, uint8_t salt)
{
    const text right = plain_command(TW_CLASS_CARD, TW_INS_PAIR, TW_P1_PAIR_FINAL, paired(key(0x93)));
    plain(step, right, TW_SUPPLY_PAIR_FINAL, paired(key(0x93)), key(salt), joined(joined(byte(index), key(salt)), status(TW_SW_SUCCESS)));
    expect(card->pending == 0, "no more pending");
    expect(card->slots[index].filled == 1 && same(text_of(card->slots[index].key, TW_KEY_BYTES), paired(key(salt))), "the slot");
    expect(index + 1 == TW_SLOTS || card->slots[index + 1].filled == 0, "the next slot");
}

/* PAIR: a wrong cryptogram ends the pairing, the right one fills slot 0. */
static void pair(void)
{
    const text right = plain_command(TW_CLASS_CARD, TW_INS_PAIR, TW_P1_PAIR_FINAL, paired(key(0x93)));
    const text wrong = plain_command(TW_CLASS_CARD, TW_INS_PAIR, TW_P1_PAIR_FINAL, paired(key(0x0F))); /* the card's own */
    text wrote;
    about("PAIR first with the supply of version 0.6.0");
    expect(call_answer(card, pair_first(), filled(0x91, 96), TW_ANSWER_ROOM_BYTES, &wrote) == TW_BAD_SUPPLY, "96 bytes are taken");
    pair_step_one("PAIR first");
    plain_status("PAIR final, wrong", wrong, TW_SW_SECURITY_NOT_MET);
    expect(card->pending == 0, "no more pending");
    plain_status("PAIR final without a first step", right, TW_SW_WRONG_PARAMETERS);
    pair_step_one("PAIR first again");
    pair_step_two("PAIR final", 0, 0x52);
}

/* OPEN of this slot, and MUTUAL; then both ends hold the same session. */
static void open_slot(unsigned index)
{
    const text iv = filled(0x63, TW_IV_BYTES);
    const text supply = joined(joined(byte(1), key(0x61)), joined(joined(key(0x62), key(0x94)), iv));
    const text open = plain_command(TW_CLASS_CARD, TW_INS_OPEN, index, point());
    plain_status("OPEN past the last slot", plain_command(TW_CLASS_CARD, TW_INS_OPEN, TW_SLOTS, point()), TW_SW_WRONG_PARAMETERS);
    plain("OPEN", open, TW_SUPPLY_OPEN, point(), supply, joined(joined(key(0x94), iv), status(TW_SW_SUCCESS)));
    expect(card->stage == TW_STAGE_OPENED, "stage 1");
    memset(terminal->enc_key, 0x61, sizeof terminal->enc_key);
    memset(terminal->mac_key, 0x62, sizeof terminal->mac_key);
    memset(terminal->iv, 0x63, sizeof terminal->iv);
    sealed("MUTUAL", TW_INS_MUTUAL, 0, key(0x0E), TW_SUPPLY_MUTUAL, key(0x95), joined(key(0x95), status(TW_SW_SUCCESS)));
    expect(card->stage == TW_STAGE_MUTUAL, "stage 2");
}

static void open_channel(void)
{
    open_slot(0);
}

static void tries(const char *step, uint8_t pin, uint8_t puk, uint8_t has_key)
{
    const uint8_t answer[] = {0xA3, 9, 0x02, 1, pin, 0x02, 1, puk, 0x01, 1, has_key};
    sealed(step, TW_INS_GET_STATUS, TW_P1_STATUS_TRIES, none(), TW_SUPPLY_NONE, none(),
           joined(text_of(answer, sizeof answer), status(TW_SW_SUCCESS)));
}

static void pin_and_puk(void)
{
    tries("GET STATUS after INIT", 3, 5, 0x00);
    sealed_status("VERIFY, wrong", TW_INS_VERIFY, 0, words(WRONG_PIN), TW_SW_TRIES_LEFT + 2);
    sealed_status("VERIFY, right", TW_INS_VERIFY, 0, words(PIN), TW_SW_SUCCESS);
    expect(card->verified == 1 && card->pin_tries == TW_PIN_TRIES, "verified, 3 tries");
    sealed_status("UNBLOCK with tries left", TW_INS_UNBLOCK, 0, joined(words(PUK), words(PIN)), TW_SW_CONDITIONS_NOT_MET);
    sealed_status("VERIFY, first wrong", TW_INS_VERIFY, 0, words(WRONG_PIN), TW_SW_TRIES_LEFT + 2);
    expect(card->verified == 0, "verification dropped");
    sealed_status("VERIFY, second wrong", TW_INS_VERIFY, 0, none(), TW_SW_TRIES_LEFT + 1);
    sealed_status("VERIFY, third wrong", TW_INS_VERIFY, 0, words("0246800"), TW_SW_TRIES_LEFT + 0);
    sealed_status("VERIFY, right too late", TW_INS_VERIFY, 0, words(PIN), TW_SW_TRIES_LEFT + 0);
    sealed_status("UNBLOCK, wrong", TW_INS_UNBLOCK, 0, joined(words("000000000000"), words("555555")), TW_SW_TRIES_LEFT + 4);
    tries("GET STATUS when blocked", 0, 4, 0x00);
    sealed_status("UNBLOCK, no digits", TW_INS_UNBLOCK, 0, joined(words(PUK), words("55555A")), TW_SW_WRONG_DATA);
    sealed_status("UNBLOCK, right", TW_INS_UNBLOCK, 0, joined(words(PUK), words("555555")), TW_SW_SUCCESS);
    sealed_status("CHANGE PIN", TW_INS_CHANGE, TW_P1_CHANGE_PIN, words(PIN), TW_SW_SUCCESS);
    sealed_status("VERIFY, the new PIN", TW_INS_VERIFY, 0, words(PIN), TW_SW_SUCCESS);
    sealed_status("CHANGE PUK", TW_INS_CHANGE, TW_P1_CHANGE_PUK, words("123456789012"), TW_SW_SUCCESS);
    secret_byte = 0x55;
    sealed_status("CHANGE the pairing secret", TW_INS_CHANGE, TW_P1_CHANGE_SECRET, key(secret_byte), TW_SW_SUCCESS);
    tries("GET STATUS when verified", 3, 5, 0x00);
}

/* SET NDEF: the two bytes at the start count those after them, not themselves and not Lc. What is stored last stays for the rest of the
   card's life. A record without field 34 is read as none, and written with an empty one. */
static void tap_record(void)
{
    const unsigned ins = TW_INS_SET_NDEF;
    const text tap = text_of(TAP, sizeof TAP), message = text_of(TAP + TW_TAP_COUNT_BYTES, sizeof TAP - TW_TAP_COUNT_BYTES);
    const text longest = joined(text_of((const uint8_t[]){0x00, TW_TAP_MAX_BYTES - TW_TAP_COUNT_BYTES}, 2), filled(0x5A, 221));
    expect(card->tap.len == 0, "none at first");
    sealed_status("SET NDEF of nothing", ins, 0, none(), TW_SW_WRONG_DATA);
    sealed_status("SET NDEF of a byte", ins, 0, byte(0), TW_SW_WRONG_DATA);
    sealed_status("SET NDEF, its count counts itself", ins, 0, joined(text_of((const uint8_t[]){0x00, 18}, 2), message), TW_SW_WRONG_DATA);
    sealed_status("SET NDEF, its count is Lc", ins, 0, joined(text_of((const uint8_t[]){0x00, 48}, 2), message), TW_SW_WRONG_DATA);
    sealed_status("SET NDEF, the low byte first", ins, 0, joined(text_of((const uint8_t[]){16, 0x00}, 2), message), TW_SW_WRONG_DATA);
    sealed_status("SET NDEF with P1 01", ins, 1, tap, TW_SW_WRONG_PARAMETERS);
    sealed_p2("SET NDEF with P2 01", ins, 0, 1, tap, TW_SUPPLY_NONE, none(), status(TW_SW_WRONG_PARAMETERS));
    expect(card->tap.len == 0, "none still");
    sealed_status("SET NDEF, the longest", ins, 0, longest, TW_SW_SUCCESS);
    expect(same(text_of(card->tap.bytes, card->tap.len), longest), "the longest tap record");
    stored("the record with the longest tap record", TW_RECORD_MIN_BYTES + TW_TAP_MAX_BYTES);
    sealed_status("SET NDEF of 00 00", ins, 0, filled(0, 2), TW_SW_SUCCESS);
    stored("the record with the shortest tap record", TW_RECORD_MIN_BYTES + 2);
    sealed_status("SET NDEF", ins, 0, tap, TW_SW_SUCCESS);
    const tw_tap_record wanted = card->tap;
    expect(same(text_of(wanted.bytes, wanted.len), tap), "the tap record");
    expect(wanted.bytes[sizeof TAP] == 0 && wanted.bytes[TW_TAP_MAX_BYTES - 1] == 0, "zero past its end");
    about("a record without field 34");
    text record;
    tw_card again;
    expect(call_write(card, TW_WRITE_ROOM_BYTES, &record) == TW_DONE, "WRITE is refused");
    record.count -= TW_FIELD_HEAD_BYTES + sizeof TAP;
    expect(record.count == TW_RECORD_MIN_BYTES - TW_FIELD_HEAD_BYTES, "its length");
    expect(call_read(&again, record) == TW_DONE && again.tap.len == 0, "it is read as none");
    expect(call_write(&again, TW_WRITE_ROOM_BYTES, &record) == TW_DONE && record.count == TW_RECORD_MIN_BYTES, "and written with field 34");
    again = *card;
    again.tap.bytes[1]++;
    expect(tw_sound(&again) == 0 && call_reset(&again) == TW_UNSOUND, "another count is not sound");
    again.tap = wanted;
    again.tap.bytes[sizeof TAP] = 1;
    expect(tw_sound(&again) == 0, "a byte past the end is not sound");
    again.tap = wanted;
    expect(tw_sound(&again) == 1, "as it was it is sound");
}

/* The template of an extended key: A1 holding 81 and 82, 32 bytes each. */
static text extended_key(void)
{
    const text head = text_of((const uint8_t[]){0xA1, 68, 0x81, TW_KEY_BYTES}, 4);
    const text chain_code_head = text_of((const uint8_t[]){0x82, TW_KEY_BYTES}, 2);
    return joined(joined(head, key(0x5E)), joined(chain_code_head, key(0x5F)));
}

/* What SIGN answers with r = 128 and s = 1. */
static text signature(void)
{
    const text head = text_of((const uint8_t[]){0xA0, 76, 0x80, TW_PUBLIC_KEY_BYTES}, 4);
    const uint8_t numbers[] = {0x30, 7, 0x02, 2, 0x00, 0x80, 0x02, 1, 0x01};
    return joined(joined(head, point()), joined(text_of(numbers, sizeof numbers), status(TW_SW_SUCCESS)));
}

/* EXPORT, with the PIN verified and the current path elsewhere: the private key at the node of the chat keys, and public keys elsewhere.
   Then the current path is the node. */
static void exports(void)
{
    const unsigned ins = TW_INS_EXPORT, both = TW_P2_EXPORT_PRIVATE_AND_PUBLIC, alone = TW_P2_EXPORT_PUBLIC_ONLY;
    const unsigned current = TW_P1_EXPORT_CURRENT, given = TW_P1_EXPORT_DERIVE, then_current = TW_P1_EXPORT_DERIVE_AND_MAKE_CURRENT;
    const text node = text_of(CHAT_NODE, sizeof CHAT_NODE);
    const text supply = joined(joined(byte(1), point()), key(0x77)), no = filled(0, TW_SUPPLY_EXPORT_BYTES);
    const text public_field = joined(text_of((const uint8_t[]){0x80, TW_PUBLIC_KEY_BYTES}, 2), point());
    const text private_field = joined(text_of((const uint8_t[]){0x81, TW_KEY_BYTES}, 2), key(0x77));
    const text public_answer = joined(joined(text_of((const uint8_t[]){0xA1, 67}, 2), public_field), status(TW_SW_SUCCESS));
    const text both_keys = joined(joined(text_of((const uint8_t[]){0xA1, 101}, 2), public_field), private_field);
    const text both_answer = joined(both_keys, status(TW_SW_SUCCESS));
    const text elsewhere = status(TW_SW_CONDITIONS_NOT_MET);
    sealed_p2("EXPORT, both, elsewhere", ins, current, both, none(), TW_SUPPLY_NONE, supply, elsewhere);
    sealed_p2("EXPORT, both, above the node", ins, then_current, both, text_of(CHAT_NODE, 8), TW_SUPPLY_NONE, supply, elsewhere);
    sealed_p2("EXPORT, public", ins, current, alone, none(), TW_SUPPLY_EXPORT, supply, public_answer);
    sealed_p2("EXPORT with flag 00", ins, then_current, both, node, TW_SUPPLY_EXPORT, no, status(TW_SW_REFERENCE_INVALID));
    sealed_p2("EXPORT of 3 bytes", ins, given, both, filled(0, 3), TW_SUPPLY_NONE, supply, status(TW_SW_WRONG_DATA));
    sealed_p2("EXPORT with P2 02", ins, given, 2, node, TW_SUPPLY_NONE, supply, status(TW_SW_WRONG_PARAMETERS));
    sealed_p2("EXPORT, both, a given path", ins, given, both, node, TW_SUPPLY_EXPORT, supply, both_answer);
    expect(card->current.len == sizeof TWO_COMPONENTS, "the current path stays");
    sealed_p2("EXPORT, both, then current", ins, then_current, both, node, TW_SUPPLY_EXPORT, supply, both_answer);
    expect(same(text_of(card->current.bytes, card->current.len), node), "the given path is current");
    sealed_p2("EXPORT, both, the current path", ins, current, both, none(), TW_SUPPLY_EXPORT, supply, both_answer);
}

static void keys(void)
{
    const text sign_supply = joined(joined(point(), joined(filled(0, 31), byte(128))), joined(filled(0, 31), byte(1)));
    const text public_key = filled(0x71, TW_PUBLIC_KEY_BYTES), key_uid = joined(hashed(public_key), status(TW_SW_SUCCESS));
    sealed_status("SIGN without a key", TW_INS_SIGN, 0, filled(0x5F, HASH_BYTES), TW_SW_CONDITIONS_NOT_MET);
    sealed("LOAD with flag 00", TW_INS_LOAD, TW_P1_LOAD_SEED, filled(0x5E, SEED_BYTES), TW_SUPPLY_LOAD,
           filled(0, TW_SUPPLY_LOAD_BYTES), status(TW_SW_WRONG_DATA));
    load_faults(card, terminal);
    sealed_status("LOAD of half a seed", TW_INS_LOAD, TW_P1_LOAD_SEED, key(0x5E), TW_SW_WRONG_DATA);
    sealed("LOAD", TW_INS_LOAD, TW_P1_LOAD_EXTENDED, extended_key(), TW_SUPPLY_LOAD, joined(byte(1), public_key), key_uid);
    expect(card->key_kind == TW_KEY_EXTENDED, "an extended key");
    expect(same(text_of(card->key_uid, TW_KEY_BYTES), hashed(public_key)), "its UID is the hash of the supplied key");
    tries("GET STATUS with a key", 3, 5, 0xFF);
    sealed("DERIVE with flag 00", TW_INS_DERIVE, 0, path(), TW_SUPPLY_DERIVE, byte(0), status(TW_SW_REFERENCE_INVALID));
    sealed_status("DERIVE of 3 bytes", TW_INS_DERIVE, 0, filled(0, 3), TW_SW_WRONG_DATA);
    sealed("DERIVE", TW_INS_DERIVE, 0, path(), TW_SUPPLY_DERIVE, byte(1), status(TW_SW_SUCCESS));
    sealed("GET STATUS of the path", TW_INS_GET_STATUS, TW_P1_STATUS_PATH, none(), TW_SUPPLY_NONE, none(),
           joined(path(), status(TW_SW_SUCCESS)));
    sealed("SIGN", TW_INS_SIGN, 0, filled(0x5F, HASH_BYTES), TW_SUPPLY_SIGN, sign_supply, signature());
    exports();
    sealed("DERIVE again", TW_INS_DERIVE, 0, path(), TW_SUPPLY_DERIVE, byte(1), status(TW_SW_SUCCESS));
    sealed_status("SET PIN-LESS PATH", TW_INS_SET_PINLESS_PATH, 0, path(), TW_SW_SUCCESS);
    sealed_status("VERIFY, wrong", TW_INS_VERIFY, 0, words(WRONG_PIN), TW_SW_TRIES_LEFT + 2);
    sealed("SIGN on the PIN-less path", TW_INS_SIGN, 0, filled(0x5F, HASH_BYTES), TW_SUPPLY_SIGN, sign_supply, signature());
    stored("the record with a key and two paths", TW_RECORD_MIN_BYTES + TW_KEY_BYTES + 2 * sizeof TWO_COMPONENTS + sizeof TAP);
    sealed_status("SET NDEF without a PIN", TW_INS_SET_NDEF, 0, filled(0, 2), TW_SW_CONDITIONS_NOT_MET);
    sealed_status("REMOVE without a PIN", TW_INS_REMOVE, 0, none(), TW_SW_CONDITIONS_NOT_MET);
    sealed_status("LOAD at fault without a PIN", TW_INS_LOAD, TW_P1_LOAD_PLAIN, byte(0x81), TW_SW_CONDITIONS_NOT_MET);
    sealed_status("LOAD at fault with P1 00", TW_INS_LOAD, 0, byte(0x81), TW_SW_WRONG_PARAMETERS);
    sealed_status("VERIFY, right", TW_INS_VERIFY, 0, words(PIN), TW_SW_SUCCESS);
    sealed_status("REMOVE", TW_INS_REMOVE, 0, none(), TW_SW_SUCCESS);
    expect(card->key_kind == TW_KEY_NONE && card->current.len == 0 && card->pinless.len == 0, "no key, no paths");
    sealed_status("UNPAIR past the last slot", TW_INS_UNPAIR, TW_SLOTS, none(), TW_SW_WRONG_PARAMETERS);
    sealed_status("UNPAIR", TW_INS_UNPAIR, 0, none(), TW_SW_SUCCESS);
    expect(card->slots[0].filled == 0 && card->slots[0].key[31] == 0, "slot 0 is free");
}

/* Refusals of SEAL and UNSEAL, a refused supply over the channel, and a forged command, which loses the channel. */
static void messages(void)
{
    about("messages");
    text wrote, command, response, supply = joined(byte(1), point());
    unsigned kind;
    const text most = filled(0x5E, TW_DATA_MAX_BYTES);
    expect(call_seal(terminal, TW_INS_LOAD, 3, 0, joined(most, byte(0)), TW_SEAL_ROOM_BYTES, &wrote) == TW_TOO_LONG, "SEAL of too much");
    expect(call_seal(terminal, TW_INS_LOAD, 3, 0, joined(most, byte(0)), TW_SEAL_ROOM_BYTES - 1, &wrote) == TW_ROOM, "SEAL: 2 before 6");
    expect(call_seal(terminal, TW_INS_LOAD, 3, 0, filled(0x5E, SEED_BYTES), TW_SEAL_ROOM_BYTES, &command) == TW_DONE, "SEAL");
    expect(call_ask(card, command, TW_ASK_ROOM_BYTES - 1, &kind, &wrote) == TW_ROOM, "ASK in a small buffer");
    expect(call_answer(card, command, byte(1), TW_ANSWER_ROOM_BYTES, &wrote) == TW_BAD_SUPPLY, "a supply too short");
    expect(call_answer(card, command, supply, TW_ANSWER_ROOM_BYTES, &response) == TW_DONE, "ANSWER, the same command");
    expect(call_unseal(terminal, response, TW_UNSEAL_ROOM_BYTES - 1, &wrote) == TW_ROOM, "UNSEAL in a small buffer");
    for (size_t at = 0; at < response.count; at++) {
        text damaged = response;
        damaged.bytes[at] = (uint8_t)(damaged.bytes[at] ^ 0x10);
        expect(call_unseal(terminal, damaged, TW_UNSEAL_ROOM_BYTES, &wrote) == TW_NOT_GENUINE, "UNSEAL of a damaged response");
    }
    expect(call_unseal(terminal, none(), TW_UNSEAL_ROOM_BYTES, &wrote) == TW_NOT_GENUINE, "UNSEAL of nothing");
    expect(call_unseal(terminal, response, TW_UNSEAL_ROOM_BYTES, &wrote) == TW_DONE, "UNSEAL");
    expect(same(wrote, joined(hashed(point()), status(TW_SW_SUCCESS))), "the answer");
    expect(call_seal(terminal, TW_INS_LOAD, 3, 0, most, TW_SEAL_ROOM_BYTES, &command) == TW_DONE && command.count == 245, "SEAL of the most");
    command.bytes[5] = (uint8_t)(command.bytes[5] ^ 1);
    plain_status("a forged command", command, TW_SW_SECURITY_NOT_MET);
    expect(card->stage == TW_STAGE_CLOSED && card->verified == 0, "channel and verification are lost");
    plain_status("a good command after it", plain_command(TW_CLASS_CARD, TW_INS_VERIFY, 0, words(PIN)), TW_SW_CONDITIONS_NOT_MET);
    expect(call_reset(card) == TW_DONE, "RESET");
}

/* One client verifies the PIN, and another opens a channel on the card: it finds the PIN not verified. A refused OPEN, and what keeps the
   channel, keep the verification; SELECT and RESET end it. A verified PIN without a channel in stage 2 is not sound. */
static void second_client(void)
{
    text wrote;
    const text open = plain_command(TW_CLASS_CARD, TW_INS_OPEN, 0, point());
    const text pairing = pair_first();
    pair();
    open_channel();
    sealed_status("VERIFY, the first client", TW_INS_VERIFY, 0, words(PIN), TW_SW_SUCCESS);
    plain_status("PAIR over the channel", pairing, TW_SW_CONDITIONS_NOT_MET);
    sealed_status("MUTUAL over the channel", TW_INS_MUTUAL, 0, key(0x0E), TW_SW_CONDITIONS_NOT_MET);
    expect(call_answer(card, open, byte(0), TW_ANSWER_ROOM_BYTES, &wrote) == TW_BAD_SUPPLY, "OPEN with a flag alone");
    expect(card->stage == TW_STAGE_MUTUAL && card->verified == 1, "channel and verification are kept");
    sealed_status("UNPAIR, the first client", TW_INS_UNPAIR, TW_SLOTS - 1, none(), TW_SW_SUCCESS);
    open_channel();
    expect(card->verified == 0, "the second client finds no verification");
    sealed_status("UNPAIR, the second client", TW_INS_UNPAIR, 0, none(), TW_SW_CONDITIONS_NOT_MET);
    sealed_status("VERIFY, the second client", TW_INS_VERIFY, 0, words(PIN), TW_SW_SUCCESS);
    sealed_status("UNPAIR, then", TW_INS_UNPAIR, TW_SLOTS - 1, none(), TW_SW_SUCCESS);
    about("SELECT and RESET after VERIFY");
    tw_card reset = *card;
    expect(call_reset(&reset) == TW_DONE && reset.stage == TW_STAGE_CLOSED && reset.verified == 0, "RESET ends the verification");
    expect(call_answer(card, select_command(), none(), TW_ANSWER_ROOM_BYTES, &wrote) == TW_DONE, "SELECT is refused");
    expect(card->stage == TW_STAGE_CLOSED && card->verified == 0, "SELECT ends the verification");
    card->verified = 1;
    expect(tw_sound(card) == 0 && call_reset(card) == TW_UNSOUND, "a verified PIN in stage 0 is not sound");
    card->verified = 0;
    expect(tw_sound(card) == 1, "the same card without it is sound");
}

/* What SELECT counts on this card, which it leaves in stage 0. */
static void free_slots(const char *step, unsigned count)
{
    about(step);
    text wrote;
    const size_t at = 2 + 2 + TW_UID_BYTES + 2 + TW_PUBLIC_KEY_BYTES + 4;
    expect(call_answer(card, select_command(), none(), TW_ANSWER_ROOM_BYTES, &wrote) == TW_DONE, "SELECT is refused");
    expect(wrote.bytes[at] == 0x02 && wrote.bytes[at + 1] == 1 && wrote.bytes[at + 2] == count, "free slots");
}

/* A card has the slots 0 to 7: after the first, seven more are paired in their order, and no more. OPEN and UNPAIR take the last one, and not
   the index 8. */
static void eight_slots(void)
{
    free_slots("one slot is filled", TW_SLOTS - 1);
    for (unsigned index = 1; index < TW_SLOTS; index++) {
        pair_step_one("PAIR first, the next slot");
        pair_step_two("PAIR final, the next slot", index, (uint8_t)(0x52 + index));
    }
    free_slots("all slots are filled", 0);
    plain_status("a ninth pairing", pair_first(), TW_SW_NO_SPACE);
    open_slot(TW_SLOTS - 1);
    sealed_status("VERIFY over the last slot", TW_INS_VERIFY, 0, words(PIN), TW_SW_SUCCESS);
    sealed_status("UNPAIR past the last slot", TW_INS_UNPAIR, TW_SLOTS, none(), TW_SW_WRONG_PARAMETERS);
    sealed_status("UNPAIR of the last slot", TW_INS_UNPAIR, TW_SLOTS - 1, none(), TW_SW_SUCCESS);
    free_slots("one slot is free", 1);
    plain_status("OPEN of the freed slot", plain_command(TW_CLASS_CARD, TW_INS_OPEN, TW_SLOTS - 1, point()), TW_SW_WRONG_PARAMETERS);
    pair_step_one("PAIR first, once more");
    pair_step_two("PAIR final, once more", TW_SLOTS - 1, 0x52);
}

/* A record that WRITE wrote, in another form: with this many slots in field 24, and without its last bytes. */
static text in_form(text record, size_t slots, size_t cut_bytes)
{
    const size_t at = TW_RECORD_FRESH_BYTES + TW_RECORD_SECRETS_BYTES - TW_FIELD_HEAD_BYTES;
    const size_t content_at = at + TW_FIELD_HEAD_BYTES, after_at = content_at + TW_SLOTS * TW_SLOT_BYTES;
    const size_t slots_bytes = slots * TW_SLOT_BYTES;
    const uint8_t head[] = {0x24, (uint8_t)(slots_bytes >> 8), (uint8_t)slots_bytes};
    const text before = joined(text_of(record.bytes, at), text_of(head, sizeof head));
    const text after = text_of(record.bytes + after_at, record.count - after_at - cut_bytes);
    return joined(joined(before, text_of(record.bytes + content_at, slots_bytes)), after);
}

/* READ of the record in its older forms, with the 5 slots of before, with field 34 and without it: the slots 5 to 7 are free then, and WRITE
   writes today's form. Any other number of slots is no record. */
static void older_records(void)
{
    const size_t tap_field_bytes = TW_FIELD_HEAD_BYTES + sizeof TAP;
    text record, again_record;
    tw_card again;
    about("the record with all slots filled");
    expect(call_write(card, TW_WRITE_ROOM_BYTES, &record) == TW_DONE, "WRITE is refused");
    expect(same(in_form(record, TW_SLOTS, 0), record), "its form");
    for (size_t slots = 0; slots < TW_SLOTS; slots++) {
        about(slots == TW_SLOTS_BEFORE ? "a record with the slots of before" : "a record with another number of slots");
        for (int tapped = 0; tapped <= 1; tapped++) {
            const text older = in_form(record, slots, tapped ? 0 : tap_field_bytes);
            if (slots != TW_SLOTS_BEFORE) {
                expect(call_read(&again, older) == TW_NOT_RECORD, "READ takes it");
                continue;
            }
            expect(call_read(&again, older) == TW_DONE, "READ is refused");
            tw_card wanted = *card;
            expect(call_reset(&wanted) == TW_DONE, "RESET is refused");
            memset(wanted.slots + slots, 0, sizeof wanted.slots - slots * sizeof wanted.slots[0]);
            if (!tapped) {
                memset(&wanted.tap, 0, sizeof wanted.tap);
            }
            expect(memcmp(&again, &wanted, sizeof again) == 0, "READ's card");
            expect(call_write(&again, TW_WRITE_ROOM_BYTES, &again_record) == TW_DONE, "WRITE is refused");
            expect(again_record.count == TW_RECORD_MIN_BYTES + TW_KEY_BYTES + (tapped ? sizeof TAP : 0), "today's form");
        }
    }
}

/* FIPS 180-4's example: the client's own hash, before it vouches for the card's. */
static void published_hash(void)
{
    about("SHA-256 of abc");
    static const uint8_t of_abc[] = {0xBA, 0x78, 0x16, 0xBF, 0x8F, 0x01, 0xCF, 0xEA, 0x41, 0x41, 0x40, 0xDE, 0x5D, 0xAE, 0x22, 0x23,
                                     0xB0, 0x03, 0x61, 0xA3, 0x96, 0x17, 0x7A, 0x9C, 0xB4, 0x10, 0xFF, 0x61, 0xF2, 0x00, 0x15, 0xAD};
    expect(same(hashed(words("abc")), text_of(of_abc, sizeof of_abc)), "the client's hash");
}

/* SP 800-38A, F.2.5, CBC-AES256.Encrypt: its first block, as SEAL enciphers it. */
static void published_vector(void)
{
    about("SP 800-38A, F.2.5");
    static const uint8_t aes_key[TW_KEY_BYTES] = {0x60, 0x3D, 0xEB, 0x10, 0x15, 0xCA, 0x71, 0xBE, 0x2B, 0x73, 0xAE,
                                                  0xF0, 0x85, 0x7D, 0x77, 0x81, 0x1F, 0x35, 0x2C, 0x07, 0x3B, 0x61,
                                                  0x08, 0xD7, 0x2D, 0x98, 0x10, 0xA3, 0x09, 0x14, 0xDF, 0xF4};
    static const uint8_t block[16] = {0x6B, 0xC1, 0xBE, 0xE2, 0x2E, 0x40, 0x9F, 0x96, 0xE9, 0x3D, 0x7E, 0x11, 0x73, 0x93, 0x17, 0x2A};
    static const uint8_t enciphered[16] = {0xF5, 0x8C, 0x4C, 0x04, 0xD6, 0xE5, 0xF1, 0xBA, 0x77, 0x9E, 0xAB, 0xFB, 0x5F, 0x7B, 0xFB, 0xD6};
    tw_session session = {{0}, {0}, {0}};
    memcpy(session.enc_key, aes_key, sizeof aes_key);
    for (uint8_t at = 0; at < TW_IV_BYTES; at++) {
        session.iv[at] = at;
    }
    text wrote;
    expect(call_seal(&session, 0, 0, 0, text_of(block, sizeof block), TW_SEAL_ROOM_BYTES, &wrote) == TW_DONE, "SEAL is refused");
    expect(memcmp(wrote.bytes + TW_HEADER_BYTES + LC_BYTES + TW_MAC_BYTES, enciphered, sizeof enciphered) == 0, "the block");
}

static void play(enum placing placing)
{
    places_use(placing);
    card = (tw_card *)place(sizeof *card, 0);
    terminal = (tw_session *)place(sizeof *terminal, 0);
    unsound_card();
    fresh_card();
    stored("the record before INIT", TW_RECORD_FRESH_BYTES);
    init_card();
    stored("the record after INIT", TW_RECORD_MIN_BYTES);
    pair();
    open_channel();
    phrases(card, terminal);
    pin_and_puk();
    phrases(card, terminal);
    expect(card->verified == 1, "the PIN is verified still");
    tap_record();
    keys();
    messages();
    second_client();
    eight_slots();
    older_records();
    about("the end of its life");
    expect(same(text_of(card->tap.bytes, card->tap.len), text_of(TAP, sizeof TAP)), "all else kept the tap record");
    published_vector();
    published_hash();
    word_numbers();
    templates();
    places_release(0);
}

int main(void)
{
    for (int placing = 0; placing < PLACINGS; placing++) {
        const unsigned failed = checks_failed();
        play((enum placing)placing);
        if (checks_failed() != failed) {
            printf("life: that was with memory placed: %s\n", placing_name((enum placing)placing));
        }
    }
    printf("life: %u checks in %d lives, %u failed\n", checks_made(), (int)PLACINGS, checks_failed());
    return checks_failed() == 0 ? 0 : 1;
}
