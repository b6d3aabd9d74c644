/* The terminal's end: the wallet program on a phone or computer. It knows PIN, PUK and pairing secret, and nothing of the host but its
   answers. A function that sends a command gives the status word of the answer (9000 is success), or 0 where no genuine answer came; the
   response data are in the terminal then. Lengths are in bytes. */
#ifndef TERMINAL_H
#define TERMINAL_H

#include "keys.h"

struct terminal {
    uint8_t card_public_key[TW_PUBLIC_KEY_BYTES]; /* from SELECT */
    uint8_t slot;                                 /* from PAIR, kept as long as the pairing */
    uint8_t pairing_key[TW_KEY_BYTES];            /* likewise */
    tw_session session;                           /* from OPEN, until the channel ends */
    uint8_t data[TW_ANSWER_ROOM_BYTES];           /* response data of the last answer */
    size_t data_bytes;
};

/* The wire, which is the caller's: brings a command to the card, and its answer back. Gives the answer's length; 0: there is none. */
size_t transmit(const uint8_t *command, size_t command_bytes, uint8_t answer[TW_ANSWER_ROOM_BYTES]);

/* A command as it is, and one over the channel. */
unsigned terminal_plain(struct terminal *terminal, uint8_t cla, uint8_t ins, uint8_t p1, const void *data, size_t data_bytes);
unsigned terminal_sealed(struct terminal *terminal, uint8_t ins, uint8_t p1, uint8_t p2, const void *data, size_t data_bytes);

unsigned terminal_select(struct terminal *terminal);
unsigned terminal_init(struct terminal *terminal, const char pin[TW_PIN_BYTES], const char puk[TW_PUK_BYTES],
                       const uint8_t pairing_secret[TW_KEY_BYTES]);
/* Both steps of PAIR. 0 also where the card does not know the pairing secret. */
unsigned terminal_pair(struct terminal *terminal, const uint8_t pairing_secret[TW_KEY_BYTES]);
/* OPEN and MUTUAL: then the channel is there. */
unsigned terminal_open(struct terminal *terminal);

/* LOAD of a plain or an extended key (P1), with its public key, or without where that is NULL. */
unsigned terminal_load(struct terminal *terminal, uint8_t p1, const extended_key *key, const uint8_t *public_key);

/* A word of GENERATE MNEMONIC's response, counted from 0: its number in BIP 39's list, 0 to 2047. */
unsigned terminal_word(const struct terminal *terminal, size_t at);

/* SIGN's response: the public key, and the signature in DER, both inside the response data. 0: it has another form. */
int terminal_signature(const struct terminal *terminal, const uint8_t **public_key, const uint8_t **der, size_t *der_bytes);

#endif
