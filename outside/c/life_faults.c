#include "life_faults.h"

#include "life_calls.h"

#include <string.h>

/* Bytes of a template, as a text. */
#define BYTES(...) text_of((const uint8_t[]){__VA_ARGS__}, sizeof((const uint8_t[]){__VA_ARGS__}))

static void walked(const char *step, text input, size_t count)
{
    about(step);
    size_t fields, fault_offset;
    expect(call_walk(input, &fields, &fault_offset) == TW_DONE, "WALK is refused");
    expect(fields == count, "WALK's count of fields");
}

static void walk_refused(const char *step, text input, unsigned refusal, size_t offset)
{
    about(step);
    size_t fields, fault_offset;
    expect(call_walk(input, &fields, &fault_offset) == refusal, "WALK's refusal");
    expect(fields == 0, "a refusal counts no field");
    expect(fault_offset == offset, "WALK's fault offset");
}

/* Templates one inside the other, so many deep, around a field of no bytes. */
static text nested(unsigned depth)
{
    text whole = BYTES(0x80, 0x00);
    for (unsigned at = 0; at < depth; at++) {
        whole = joined(BYTES(0xA1, (uint8_t)whole.count), whole);
    }
    return whole;
}

void templates(void)
{
    const text deepest = nested(TW_WALK_DEPTH_MAX), three = BYTES(0x80, 0x00, 0x81, 0x00, 0x82, 0x00);
    const text longest = joined(BYTES(0x80, 0x81, 0xFF), filled(0x99, 0xFF));
    walked("templates to depth 4", deepest, 1);
    walked("three fields", three, 3);
    walked("both, joined", joined(deepest, three), 1 + 3);
    walked("both, the other way", joined(three, deepest), 3 + 1);
    walked("no bytes", none(), 0);
    walked("A1 00", BYTES(0xA1, 0x00), 0);
    walked("a length of 128", joined(BYTES(0x80, 0x81, 0x80), filled(0, 128)), 1);
    walk_refused("a template at depth 5", nested(TW_WALK_DEPTH_MAX + 1), TW_TOO_DEEP, 8);
    walk_refused("one after three fields", joined(three, nested(TW_WALK_DEPTH_MAX + 1)), TW_TOO_DEEP, 6 + 8);
    walk_refused("a tag alone", byte(0x80), TW_MALFORMED, 0);
    walk_refused("a tag alone, after three fields", joined(three, byte(0x80)), TW_MALFORMED, 6);
    walk_refused("80 81 05", BYTES(0x80, 0x81, 0x05), TW_MALFORMED, 0);
    walk_refused("the same inside of A1", BYTES(0xA1, 0x03, 0x80, 0x81, 0x05), TW_MALFORMED, 2);
    walk_refused("a template that ends beyond the input", BYTES(0xA1, 0x03, 0x80, 0x00), TW_MALFORMED, 0);
    walk_refused("a field that ends beyond its template", BYTES(0xA1, 0x02, 0x80, 0x01, 0x99), TW_MALFORMED, 2);
    walk_refused("an offset over 255", joined(longest, byte(0x81)), TW_MALFORMED, 258);
}

/* LOAD with these data, from SEAL to UNSEAL: its status word, and ANSWER's fault offset. Of the card no more changes than the IV. */
static void load(const char *step, tw_card *card, tw_session *terminal, unsigned p1, text data, size_t offset)
{
    about(step);
    text command, response, opened;
    size_t fault_offset, fields, walk_offset;
    tw_card before = *card;
    expect(call_seal(terminal, TW_INS_LOAD, p1, 0, data, TW_SEAL_ROOM_BYTES, &command) == TW_DONE, "SEAL is refused");
    expect(call_answer_placed(card, command, none(), TW_ANSWER_ROOM_BYTES, &response, &fault_offset) == TW_DONE, "ANSWER is refused");
    expect(call_unseal(terminal, response, TW_UNSEAL_ROOM_BYTES, &opened) == TW_DONE, "UNSEAL is refused");
    expect(same(opened, status(TW_SW_WRONG_DATA)), "6A80 is the whole answer");
    expect(fault_offset == offset, "ANSWER's fault offset");
    const unsigned refusal = call_walk(data, &fields, &walk_offset);
    if (p1 != TW_P1_LOAD_SEED) {
        expect(fault_offset == (refusal == TW_DONE ? (size_t)TW_NO_FAULT : walk_offset), "WALK tells the same");
    }
    memcpy(before.iv, card->iv, sizeof before.iv);
    expect(memcmp(card, &before, sizeof before) == 0, "the card is as it was");
}

void load_faults(tw_card *card, tw_session *terminal)
{
    const text key = filled(0x11, TW_KEY_BYTES), right = joined(BYTES(0xA1, 34, 0x81, TW_KEY_BYTES), key);
    /* 256 typed for 32: 01 is taken as the length, 00 as the content, and the key's bytes as more fields. */
    const text bits = joined(BYTES(0xA1, 35, 0x81, 0x01, 0x00), key);
    const text long_template = joined(BYTES(0xA1, 35, 0x81, TW_KEY_BYTES), key), long_key = joined(BYTES(0xA1, 34, 0x81, 33), key);
    const text chain_cut = joined(joined(BYTES(0xA1, 67, 0x81, TW_KEY_BYTES), key), joined(BYTES(0x82, TW_KEY_BYTES), filled(0x22, 31)));
    load("LOAD, 256 for 32", card, terminal, TW_P1_LOAD_PLAIN, bits, 24);
    load("LOAD, A1 a byte too long", card, terminal, TW_P1_LOAD_PLAIN, long_template, 0);
    load("LOAD, 81 a byte too long", card, terminal, TW_P1_LOAD_PLAIN, long_key, 2);
    load("LOAD, a chain code of 31 bytes", card, terminal, TW_P1_LOAD_EXTENDED, chain_cut, 36);
    load("LOAD, a template at depth 5", card, terminal, TW_P1_LOAD_EXTENDED, nested(TW_WALK_DEPTH_MAX + 1), 8);
    load("LOAD, the last tag that there can be", card, terminal, TW_P1_LOAD_PLAIN,
         joined(joined(BYTES(0x80, 0x81, 219), filled(0x99, 219)), byte(0x81)), TW_DATA_MAX_BYTES - 1);
    /* Whole fields that are not those of a key have no place. */
    load("LOAD of no data", card, terminal, TW_P1_LOAD_PLAIN, none(), TW_NO_FAULT);
    load("LOAD of a plain key as an extended one", card, terminal, TW_P1_LOAD_EXTENDED, right, TW_NO_FAULT);
    load("LOAD with a field after the template", card, terminal, TW_P1_LOAD_PLAIN, joined(right, BYTES(0x80, 0x00)), TW_NO_FAULT);
    load("LOAD of half a seed", card, terminal, TW_P1_LOAD_SEED, key, TW_NO_FAULT);
}
