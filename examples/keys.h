/* The keys of Keycard's secure channel, and of BIP 32, over curve.h and hash.h: docs/INTEGRATION.md, 5.1, a function for each row. Both
   ends of a channel use them, but for keys_pairing and keys_uid, which are the terminal's: the card works these out itself. A function gives 1
   where it is done and 0 where there is no such key. Lengths are in bytes. */
#ifndef KEYS_H
#define KEYS_H

#include "treadlewisp.h"

enum {
    SEED_BYTES = 64 /* of BIP 39 */
};

/* A key of BIP 32 from which others are derived. */
typedef struct extended_key {
    uint8_t private_key[TW_KEY_BYTES];
    uint8_t chain_code[TW_KEY_BYTES];
} extended_key;

/* Both keys of a channel. */
typedef struct channel_keys {
    uint8_t enc_key[TW_KEY_BYTES];
    uint8_t mac_key[TW_KEY_BYTES];
} channel_keys;

/* A new key pair. */
int keys_pair(uint8_t private_key[TW_KEY_BYTES], uint8_t public_key[TW_PUBLIC_KEY_BYTES]);

/* SHA-256 of the pairing secret and 32 bytes after it. With the other end's challenge it is a cryptogram, with PAIR's salt the pairing
   key. For the terminal. */
int keys_pairing(const uint8_t pairing_secret[TW_KEY_BYTES], const uint8_t challenge_or_salt[TW_KEY_BYTES], uint8_t result[TW_KEY_BYTES]);

/* The keys of a channel, by SHA-512: the encryption key is its first 32 bytes, the MAC key its last 32. */
int keys_channel(const uint8_t ecdh_secret[TW_KEY_BYTES], const uint8_t pairing_key[TW_KEY_BYTES], const uint8_t salt[TW_KEY_BYTES],
                 channel_keys *keys);

/* A key's UID: SHA-256 of its public key, all 65 bytes. For a terminal that compares what LOAD and SELECT answer. */
int keys_uid(const uint8_t public_key[TW_PUBLIC_KEY_BYTES], uint8_t key_uid[TW_KEY_BYTES]);

/* The master key of a seed, and the key of a path from the master key on: 4 bytes a component, the high byte first. */
int keys_master(const uint8_t seed[SEED_BYTES], extended_key *master);
int keys_derive(const extended_key *master, const uint8_t *path, size_t path_bytes, extended_key *derived);

#endif
