/* Hashes, HMAC and random numbers, by OpenSSL's libcrypto. A function gives 1 where it is done and 0 where libcrypto could not do it.
   Lengths are in bytes. */
#ifndef HASH_H
#define HASH_H

#include <stddef.h>
#include <stdint.h>

enum {
    SHA256_BYTES = 32,
    SHA512_BYTES = 64
};

/* SHA-256 is the terminal's: the card makes the hashes of PAIR, LOAD and a recovery phrase itself. SHA-512 and HMAC both ends need. */
int hash_sha256(const uint8_t *message, size_t message_bytes, uint8_t digest[SHA256_BYTES]);
int hash_sha512(const uint8_t *message, size_t message_bytes, uint8_t digest[SHA512_BYTES]);
int hash_hmac_sha512(const uint8_t *key, size_t key_bytes, const uint8_t *message, size_t message_bytes, uint8_t mac[SHA512_BYTES]);

/* Random bytes for keys, from the generator that libcrypto seeds from the system. */
int random_bytes(uint8_t *bytes, size_t count);

/* Whether two texts of this length are the same, in a time that does not depend on where they differ. */
int same_bytes(const uint8_t *a, const uint8_t *b, size_t count);

#endif
