/* SHA-256 (FIPS 180-4), written plainly and apart from the library, for what a client of the card hashes. Lengths are in bytes. */
#ifndef LIFE_HASH_H
#define LIFE_HASH_H

#include "life_calls.h"

/* SHA-256 of the text, 32 bytes. */
text hashed(text message);

/* What either end makes of the pairing secret and 32 bytes after it: of a challenge the cryptogram, of the salt the pairing key. */
text hashed_with(text pairing_secret, text after);

#endif
