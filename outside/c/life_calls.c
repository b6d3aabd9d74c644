#include "life_calls.h"
#include "life_places.h"

#include <stdio.h>
#include <string.h>

enum {
    FILL = 0xA5
};

static unsigned made = 0;
static unsigned failed = 0;
static const char *current_step = "";

void about(const char *step)
{
    current_step = step;
}

void expect(int fact, const char *what)
{
    made++;
    if (!fact) {
        failed++;
        printf("life: not as the rules have it: %s: %s\n", current_step, what);
    }
}

unsigned checks_made(void)
{
    return made;
}

unsigned checks_failed(void)
{
    return failed;
}

text text_of(const uint8_t *bytes, size_t count)
{
    text t = {count, {0}};
    memcpy(t.bytes, bytes, count);
    return t;
}

text filled(uint8_t value, size_t count)
{
    text t = {count, {0}};
    memset(t.bytes, value, count);
    return t;
}

text none(void)
{
    return filled(0, 0);
}

text byte(unsigned value)
{
    return filled((uint8_t)value, 1);
}

text words(const char *characters)
{
    return text_of((const uint8_t *)characters, strlen(characters));
}

text joined(text first, text second)
{
    memcpy(first.bytes + first.count, second.bytes, second.count);
    first.count += second.count;
    return first;
}

int same(text a, text b)
{
    return a.count == b.count && memcmp(a.bytes, b.bytes, a.count) == 0;
}

text status(unsigned word)
{
    const uint8_t bytes[TW_STATUS_BYTES] = {(uint8_t)(word >> 8), (uint8_t)(word & 0xFF)};
    return text_of(bytes, sizeof bytes);
}

text plain_command(unsigned cla, unsigned ins, unsigned p1, text data)
{
    const uint8_t head[5] = {(uint8_t)cla, (uint8_t)ins, (uint8_t)p1, 0x00, (uint8_t)data.count};
    return data.count == 0 ? text_of(head, TW_HEADER_BYTES) : joined(text_of(head, sizeof head), data);
}

/* The text in memory of its length. */
static const uint8_t *placed_text(const text *t)
{
    uint8_t *bytes = place(t->count, 0);
    memcpy(bytes, t->bytes, t->count);
    return bytes;
}

/* Whether memory still holds this text. */
static int holds(const uint8_t *bytes, const text *t)
{
    return memcmp(bytes, t->bytes, t->count) == 0;
}

/* What was written, after the checks of every call. */
static void wrote_checked(const uint8_t *buf, size_t room_bytes, unsigned refusal, size_t count, text *wrote)
{
    expect(places_intact(), "bytes beside an argument were changed");
    expect(count <= room_bytes && count <= sizeof wrote->bytes, "the count is over the room");
    expect(refusal == TW_DONE || count == 0, "a refusal with a count");
    int untouched = 1;
    for (size_t at = count; at < room_bytes; at++) {
        untouched = untouched && buf[at] == FILL;
    }
    expect(untouched, "bytes past the count were changed");
    *wrote = text_of(buf, count <= room_bytes && count <= sizeof wrote->bytes ? count : 0);
}

unsigned call_reset(tw_card *card)
{
    const tw_card before = *card;
    const unsigned refusal = tw_reset(card);
    expect(places_intact(), "bytes beside the card were changed");
    expect(refusal == TW_DONE || memcmp(card, &before, sizeof before) == 0, "a refusal changed the card");
    const tw_card once = *card;
    expect(tw_reset(card) == refusal && memcmp(card, &once, sizeof once) == 0, "resetting twice is not resetting once");
    return refusal;
}

unsigned call_ask(const tw_card *card, text command, size_t room_bytes, unsigned *kind, text *wrote)
{
    const size_t mark = places_mark();
    const tw_card before = *card;
    const uint8_t *cmd = placed_text(&command);
    uint8_t *buf = place(room_bytes, FILL);
    const tw_asked asked = tw_ask(card, cmd, command.count, buf, room_bytes);
    wrote_checked(buf, room_bytes, asked.refusal, asked.count, wrote);
    expect(asked.refusal == TW_DONE || asked.kind == TW_SUPPLY_NONE, "a refusal with a kind");
    expect(asked.kind != TW_SUPPLY_NONE || asked.count == 0, "data without a kind");
    expect(memcmp(card, &before, sizeof before) == 0, "ASK changed the card");
    expect(holds(cmd, &command), "ASK changed the command");
    *kind = asked.kind;
    places_release(mark);
    return asked.refusal;
}

unsigned call_answer_placed(tw_card *card, text command, text supply, size_t room_bytes, text *wrote, size_t *fault_offset)
{
    const size_t mark = places_mark();
    const tw_card before = *card;
    const uint8_t *cmd = placed_text(&command);
    const uint8_t *sup = placed_text(&supply);
    uint8_t *buf = place(room_bytes, FILL);
    const tw_answered answered = tw_answer(card, cmd, command.count, sup, supply.count, buf, room_bytes);
    wrote_checked(buf, room_bytes, answered.refusal, answered.count, wrote);
    expect(answered.refusal == TW_DONE || memcmp(card, &before, sizeof before) == 0, "a refusal changed the card");
    expect(answered.refusal != TW_DONE || tw_sound(card) == 1, "the next card is not sound");
    expect(holds(cmd, &command) && holds(sup, &supply), "ANSWER changed the command or the supply");
    expect(answered.refusal == TW_DONE || answered.fault_offset == TW_NO_FAULT, "a refusal with a fault offset");
    expect(answered.fault_offset == TW_NO_FAULT || answered.fault_offset < TW_DATA_MAX_BYTES, "a fault beyond the data");
    *fault_offset = answered.fault_offset;
    places_release(mark);
    return answered.refusal;
}

unsigned call_answer(tw_card *card, text command, text supply, size_t room_bytes, text *wrote)
{
    size_t fault_offset;
    const unsigned refusal = call_answer_placed(card, command, supply, room_bytes, wrote, &fault_offset);
    expect(fault_offset == TW_NO_FAULT, "a fault offset where there is none");
    return refusal;
}

unsigned call_seal(tw_session *session, unsigned ins, unsigned p1, unsigned p2, text data, size_t room_bytes, text *wrote)
{
    const size_t mark = places_mark();
    const tw_session before = *session;
    const uint8_t bytes[TW_HEADER_BYTES] = {TW_CLASS_CARD, (uint8_t)ins, (uint8_t)p1, (uint8_t)p2};
    const text header = text_of(bytes, sizeof bytes);
    const uint8_t *head = placed_text(&header);
    const uint8_t *plain = placed_text(&data);
    uint8_t *buf = place(room_bytes, FILL);
    const tw_told told = tw_seal(session, head, plain, data.count, buf, room_bytes);
    wrote_checked(buf, room_bytes, told.refusal, told.count, wrote);
    expect(told.refusal == TW_DONE || memcmp(session, &before, sizeof before) == 0, "a refusal changed the session");
    expect(memcmp(session, &before, offsetof(tw_session, iv)) == 0, "SEAL changed a key");
    expect(holds(head, &header) && holds(plain, &data), "SEAL changed the header or the data");
    places_release(mark);
    return told.refusal;
}

unsigned call_unseal(tw_session *session, text response, size_t room_bytes, text *wrote)
{
    const size_t mark = places_mark();
    const tw_session before = *session;
    const uint8_t *sealed = placed_text(&response);
    uint8_t *buf = place(room_bytes, FILL);
    const tw_told told = tw_unseal(session, sealed, response.count, buf, room_bytes);
    wrote_checked(buf, room_bytes, told.refusal, told.count, wrote);
    expect(told.refusal == TW_DONE || memcmp(session, &before, sizeof before) == 0, "a refusal changed the session");
    expect(memcmp(session, &before, offsetof(tw_session, iv)) == 0, "UNSEAL changed a key");
    expect(holds(sealed, &response), "UNSEAL changed the response");
    places_release(mark);
    return told.refusal;
}

unsigned call_walk(text input, size_t *fields, size_t *fault_offset)
{
    const size_t mark = places_mark();
    const uint8_t *bytes = placed_text(&input);
    const tw_walked walked = tw_walk(bytes, input.count);
    expect(places_intact() && holds(bytes, &input), "WALK changed memory");
    expect(walked.refusal == TW_DONE || walked.count == 0, "a refusal with a count");
    expect(walked.refusal == TW_DONE ? walked.fault_offset == 0 : walked.fault_offset < input.count, "an offset beyond the input");
    *fields = walked.count;
    *fault_offset = walked.fault_offset;
    places_release(mark);
    return walked.refusal;
}

unsigned call_entropy(text words, size_t room_bytes, text *wrote)
{
    const size_t mark = places_mark();
    const uint8_t *bytes = placed_text(&words);
    uint8_t *buf = place(room_bytes, FILL);
    const tw_told told = tw_entropy(bytes, words.count, buf, room_bytes);
    wrote_checked(buf, room_bytes, told.refusal, told.count, wrote);
    expect(holds(bytes, &words), "ENTROPY changed the words");
    places_release(mark);
    return told.refusal;
}

unsigned call_write(const tw_card *card, size_t room_bytes, text *wrote)
{
    const size_t mark = places_mark();
    const tw_card before = *card;
    uint8_t *buf = place(room_bytes, FILL);
    const tw_told told = tw_write(card, buf, room_bytes);
    wrote_checked(buf, room_bytes, told.refusal, told.count, wrote);
    expect(memcmp(card, &before, sizeof before) == 0, "WRITE changed the card");
    places_release(mark);
    return told.refusal;
}

unsigned call_read(tw_card *card, text record)
{
    const size_t mark = places_mark();
    const uint8_t *bytes = placed_text(&record);
    const unsigned refusal = tw_read(card, bytes, record.count);
    expect(places_intact() && holds(bytes, &record), "READ changed memory beside the card");
    expect(tw_sound(card) == 1, "READ's card is not sound");
    places_release(mark);
    return refusal;
}

unsigned call_tap(text record, text factory, unsigned *source, text *part)
{
    const size_t mark = places_mark();
    const uint8_t *bytes = placed_text(&record);
    const uint8_t *factory_bytes = placed_text(&factory);
    const tw_tapped tapped = tw_tap(bytes, record.count, factory_bytes, factory.count);
    expect(places_intact() && holds(bytes, &record) && holds(factory_bytes, &factory), "the tap read changed memory");
    expect(tapped.refusal == TW_DONE || (tapped.source == TW_TAP_NONE && tapped.offset == 0 && tapped.length == 0), "a refusal with a part");
    expect(tapped.refusal != TW_DONE || tapped.source != TW_TAP_NONE, "no refusal, and no part");
    expect(tapped.source != TW_TAP_FACTORY || (tapped.offset == 0 && tapped.length == factory.count), "not the whole factory record");
    const text from = tapped.source == TW_TAP_RECORD ? record : factory;
    const int within = tapped.offset <= from.count && tapped.length <= from.count - tapped.offset;
    expect(within, "the part ends after its record");
    *source = tapped.source;
    *part = within ? text_of(from.bytes + tapped.offset, tapped.length) : none();
    places_release(mark);
    return tapped.refusal;
}
