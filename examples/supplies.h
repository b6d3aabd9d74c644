/* The host's part of a command: curve arithmetic, the channel's keys and random numbers, handed to the engine as a supply.
   docs/INTEGRATION.md, section 6, has each kind byte by byte. Lengths are in bytes. */
#ifndef SUPPLIES_H
#define SUPPLIES_H

#include "keys.h"

/* What a host keeps of one card: the card itself, and the keys that are not in it. */
struct host {
    tw_card card;
    uint8_t card_key[TW_KEY_BYTES]; /* private key of the card's public key */
    extended_key wallet;            /* the wallet's key; zeros without one, and for the chain code of a plain key */
};

/* Makes the supply of the kind that ASK names, from the data that ASK hands out. Gives its length; 0 where it cannot be made (no random
   numbers): then the host calls no ANSWER. Of the host, it changes the wallet's key alone, and that for LOAD alone. */
size_t supply_make(struct host *host, uint8_t kind, const uint8_t *command, const uint8_t *data, size_t data_bytes,
                   uint8_t supply[TW_SUPPLY_MAX_BYTES]);

#endif
