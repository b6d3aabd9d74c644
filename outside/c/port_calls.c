#include "port_calls.h"

#include <stdio.h>
#include <string.h>

enum {
    FILL = 0xA5
};

static uint64_t state = 1;
static size_t done[OPERATIONS], refused[OPERATIONS], with_null = 0;
static uint8_t buffer[TEXT_MAX_BYTES];

/* xorshift64*, of which the high half is taken. */
static uint32_t next(void)
{
    state ^= state >> 12;
    state ^= state << 25;
    state ^= state >> 27;
    return (uint32_t)((state * UINT64_C(0x2545F4914F6CDD1D)) >> 32);
}

void seed_with(uint64_t seed)
{
    state = seed * UINT64_C(0x9E3779B97F4A7C15) + 1;
    for (int k = 0; k < 8; k++) {
        next();
    }
}

size_t below(size_t limit)
{
    return next() % limit;
}

int one_in(size_t chances)
{
    return below(chances) == 0;
}

void draw(uint8_t *into, size_t count)
{
    for (size_t k = 0; k < count; k++) {
        into[k] = (uint8_t)next();
    }
}

bytes drawn(size_t count)
{
    bytes b = {count, {0}};
    draw(b.at, count);
    return b;
}

bytes digits(size_t count)
{
    bytes b = {count, {0}};
    for (size_t k = 0; k < count; k++) {
        b.at[k] = (uint8_t)(0x30 + below(10));
    }
    return b;
}

bytes copied(const uint8_t *from, size_t count)
{
    bytes b = {count, {0}};
    memcpy(b.at, from, count);
    return b;
}

bytes joined(bytes first, bytes second)
{
    memcpy(first.at + first.count, second.at, second.count);
    first.count += second.count;
    return first;
}

/* The start of the bytes; of none, by turns a valid pointer and null. */
static const uint8_t *start(const bytes *b)
{
    if (b->count == 0 && (calls_made() & 1) == 0) {
        with_null++;
        return NULL;
    }
    return b->at;
}

/* The buffer, filled anew; with no room by turns null. */
static uint8_t *room(size_t room_bytes)
{
    memset(buffer, FILL, sizeof buffer);
    if (room_bytes == 0 && (calls_made() & 1) == 0) {
        with_null++;
        return NULL;
    }
    return buffer;
}

static void put(const void *from, size_t count)
{
    if (count > 0 && fwrite(from, 1, count, stdout) != count) {
        perror("port");
    }
}

/* A number in 8 bytes, the low byte first, whatever the processor's order is. */
static void put_number(uint64_t number)
{
    uint8_t out[8];
    for (size_t k = 0; k < sizeof out; k++) {
        out[k] = (uint8_t)(number >> (8 * k));
    }
    put(out, sizeof out);
}

/* Writes a call down: which it was, its refusal, its three other numbers (0 where it has fewer), and the whole buffer. */
static void note(enum operation operation, unsigned refusal, size_t a, size_t b, size_t c)
{
    const uint8_t head[2] = {(uint8_t)operation, (uint8_t)refusal};
    put(head, sizeof head);
    put_number(a);
    put_number(b);
    put_number(c);
    put(buffer, sizeof buffer);
    if (refusal == TW_DONE) {
        done[operation]++;
    } else {
        refused[operation]++;
    }
}

/* What was written, as bytes. */
static void take(size_t count, bytes *wrote)
{
    wrote->count = count <= sizeof buffer ? count : 0;
    memcpy(wrote->at, buffer, wrote->count);
}

void call_fresh(tw_card *card)
{
    const bytes uid = drawn(TW_UID_BYTES), public_key = drawn(TW_PUBLIC_KEY_BYTES);
    tw_fresh(card, uid.at, public_key.at);
    note(FRESH, TW_DONE, 0, 0, 0);
    put(card, sizeof *card);
}

unsigned call_sound(const tw_card *card)
{
    const unsigned sound = tw_sound(card);
    note(SOUND, sound == 1 ? TW_DONE : TW_UNSOUND, sound, 0, 0);
    return sound;
}

unsigned call_reset(tw_card *card)
{
    const unsigned refusal = tw_reset(card);
    note(RESET, refusal, 0, 0, 0);
    put(card, sizeof *card);
    return refusal;
}

tw_asked call_ask(const tw_card *card, const bytes *command, size_t room_bytes, bytes *wrote)
{
    const tw_asked asked = tw_ask(card, start(command), command->count, room(room_bytes), room_bytes);
    note(ASK, asked.refusal, asked.kind, asked.count, 0);
    put(card, sizeof *card);
    take(asked.count, wrote);
    return asked;
}

tw_answered call_answer(tw_card *card, const bytes *command, const bytes *supply, size_t room_bytes, bytes *wrote)
{
    const tw_answered answered = tw_answer(card, start(command), command->count, start(supply), supply->count, room(room_bytes), room_bytes);
    note(ANSWER, answered.refusal, answered.count, answered.fault_offset, 0);
    put(card, sizeof *card);
    take(answered.count, wrote);
    return answered;
}

tw_told call_seal(tw_session *session, const uint8_t *header, const bytes *data, size_t room_bytes, bytes *wrote)
{
    const tw_told told = tw_seal(session, header, start(data), data->count, room(room_bytes), room_bytes);
    note(SEAL, told.refusal, told.count, 0, 0);
    put(session, sizeof *session);
    take(told.count, wrote);
    return told;
}

tw_told call_unseal(tw_session *session, const bytes *response, size_t room_bytes, bytes *wrote)
{
    const tw_told told = tw_unseal(session, start(response), response->count, room(room_bytes), room_bytes);
    note(UNSEAL, told.refusal, told.count, 0, 0);
    put(session, sizeof *session);
    take(told.count, wrote);
    return told;
}

tw_walked call_walk(const bytes *input)
{
    const tw_walked walked = tw_walk(start(input), input->count);
    note(WALK, walked.refusal, walked.count, walked.fault_offset, 0);
    return walked;
}

tw_told call_entropy(const bytes *words, size_t room_bytes, bytes *wrote)
{
    const tw_told told = tw_entropy(start(words), words->count, room(room_bytes), room_bytes);
    note(ENTROPY, told.refusal, told.count, 0, 0);
    take(told.count, wrote);
    return told;
}

tw_told call_write(const tw_card *card, size_t room_bytes, bytes *wrote)
{
    const tw_told told = tw_write(card, room(room_bytes), room_bytes);
    note(WRITE, told.refusal, told.count, 0, 0);
    take(told.count, wrote);
    return told;
}

unsigned call_read(tw_card *card, const bytes *record)
{
    const unsigned refusal = tw_read(card, start(record), record->count);
    note(READ, refusal, 0, 0, 0);
    put(card, sizeof *card);
    return refusal;
}

tw_tapped call_tap(const bytes *record, const bytes *factory)
{
    const tw_tapped tapped = tw_tap(start(record), record->count, start(factory), factory->count);
    note(TAP, tapped.refusal, tapped.source, tapped.offset, tapped.length);
    return tapped;
}

size_t calls_made(void)
{
    size_t sum = 0;
    for (int k = 0; k < OPERATIONS; k++) {
        sum += done[k] + refused[k];
    }
    return sum;
}

size_t calls_done(enum operation operation)
{
    return done[operation];
}

size_t calls_refused(enum operation operation)
{
    return refused[operation];
}

size_t calls_with_null(void)
{
    return with_null;
}
