/* The calls of include/treadlewisp.h for a comparison of processors: each is made with bytes from a seeded generator, and all that it gave is
   written to standard output: its numbers, and every byte of card, session and buffer after it. Lengths are in bytes. */
#ifndef PORT_CALLS_H
#define PORT_CALLS_H

#include "treadlewisp.h"

/* The operations, by which calls are counted. */
enum operation {
    FRESH,
    SOUND,
    RESET,
    ASK,
    ANSWER,
    SEAL,
    UNSEAL,
    WALK,
    ENTROPY,
    WRITE,
    READ,
    TAP,
    OPERATIONS
};

enum {
    TEXT_MAX_BYTES = 1024
};

/* Bytes of a call. Where there are none, every second call gets a null pointer. */
typedef struct bytes {
    size_t count;
    uint8_t at[TEXT_MAX_BYTES];
} bytes;

/* The generator: the same numbers for the same seed on every processor. */
void seed_with(uint64_t seed);
size_t below(size_t limit);
int one_in(size_t chances);
void draw(uint8_t *into, size_t count);
bytes drawn(size_t count);
bytes digits(size_t count);
bytes joined(bytes first, bytes second);
bytes copied(const uint8_t *from, size_t count);

/* The calls. What was written goes to *wrote. */
void call_fresh(tw_card *card);
unsigned call_sound(const tw_card *card);
unsigned call_reset(tw_card *card);
tw_asked call_ask(const tw_card *card, const bytes *command, size_t room_bytes, bytes *wrote);
tw_answered call_answer(tw_card *card, const bytes *command, const bytes *supply, size_t room_bytes, bytes *wrote);
tw_told call_seal(tw_session *session, const uint8_t *header, const bytes *data, size_t room_bytes, bytes *wrote);
tw_told call_unseal(tw_session *session, const bytes *response, size_t room_bytes, bytes *wrote);
tw_walked call_walk(const bytes *input);
tw_told call_entropy(const bytes *words, size_t room_bytes, bytes *wrote);
tw_told call_write(const tw_card *card, size_t room_bytes, bytes *wrote);
unsigned call_read(tw_card *card, const bytes *record);
tw_tapped call_tap(const bytes *record, const bytes *factory);

/* How many calls there were: of all operations; of one that was not refused; of one that was; with a null pointer. */
size_t calls_made(void);
size_t calls_done(enum operation operation);
size_t calls_refused(enum operation operation);
size_t calls_with_null(void);

#endif
