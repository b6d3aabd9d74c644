/* The calls of include/treadlewisp.h, each with its arguments in memory of exactly their length, and with what holds of every call checked:
   bytes past the count stay, a refusal leaves card, session and buffer, what is only read stays, guard bytes stay. Lengths are in bytes. */
#ifndef LIFE_CALLS_H
#define LIFE_CALLS_H

#include "treadlewisp.h"

/* Bytes that are handed to a call, and bytes that it wrote. */
typedef struct text {
    size_t count;
    uint8_t bytes[1024];
} text;

/* A check: counted, and reported where it does not hold. */
void expect(int fact, const char *what);
/* What the checks that follow are about. */
void about(const char *step);
unsigned checks_made(void);
unsigned checks_failed(void);

text text_of(const uint8_t *bytes, size_t count);
text filled(uint8_t value, size_t count);
text none(void);
text byte(unsigned value);
/* The characters without the zero at their end. */
text words(const char *characters);
/* Both, one after the other. */
text joined(text first, text second);
int same(text a, text b);
/* The two bytes of a status word. */
text status(unsigned word);
/* A command without sealing: header, and after Lc the data if there are any. */
text plain_command(unsigned cla, unsigned ins, unsigned p1, text data);

/* The calls: each gives the refusal; what was written goes to *wrote. The buffer has room_bytes. */
unsigned call_reset(tw_card *card);
unsigned call_ask(const tw_card *card, text command, size_t room_bytes, unsigned *kind, text *wrote);
/* ANSWER, which must tell no fault offset here; and one that tells it. */
unsigned call_answer(tw_card *card, text command, text supply, size_t room_bytes, text *wrote);
unsigned call_answer_placed(tw_card *card, text command, text supply, size_t room_bytes, text *wrote, size_t *fault_offset);
unsigned call_seal(tw_session *session, unsigned ins, unsigned p1, unsigned p2, text data, size_t room_bytes, text *wrote);
unsigned call_unseal(tw_session *session, text response, size_t room_bytes, text *wrote);
unsigned call_walk(text input, size_t *fields, size_t *fault_offset);
unsigned call_entropy(text words, size_t room_bytes, text *wrote);
unsigned call_write(const tw_card *card, size_t room_bytes, text *wrote);
unsigned call_read(tw_card *card, text record);
/* The tap read's refusal; where its part lies, and the part itself, go to *source and *part. */
unsigned call_tap(text record, text factory, unsigned *source, text *part);

#endif
