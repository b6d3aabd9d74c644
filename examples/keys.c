#include "keys.h"

#include "curve.h"
#include "hash.h"

#include <string.h>

int keys_pair(uint8_t private_key[TW_KEY_BYTES], uint8_t public_key[TW_PUBLIC_KEY_BYTES])
{
    /* Fewer than one in 2^127 numbers of 32 bytes are no private key: then there is no pair. */
    return random_bytes(private_key, TW_KEY_BYTES) && curve_point(private_key, public_key);
}

int keys_pairing(const uint8_t pairing_secret[TW_KEY_BYTES], const uint8_t challenge_or_salt[TW_KEY_BYTES], uint8_t result[TW_KEY_BYTES])
{
    uint8_t message[2 * TW_KEY_BYTES];
    memcpy(message, pairing_secret, TW_KEY_BYTES);
    memcpy(message + TW_KEY_BYTES, challenge_or_salt, TW_KEY_BYTES);
    const int done = hash_sha256(message, sizeof message, result);
    tw_wipe(message, sizeof message);
    return done;
}

int keys_channel(const uint8_t ecdh_secret[TW_KEY_BYTES], const uint8_t pairing_key[TW_KEY_BYTES], const uint8_t salt[TW_KEY_BYTES],
                 channel_keys *keys)
{
    uint8_t message[3 * TW_KEY_BYTES], digest[SHA512_BYTES];
    memcpy(message, ecdh_secret, TW_KEY_BYTES);
    memcpy(message + TW_KEY_BYTES, pairing_key, TW_KEY_BYTES);
    memcpy(message + 2 * TW_KEY_BYTES, salt, TW_KEY_BYTES);
    const int done = hash_sha512(message, sizeof message, digest);
    if (done) {
        memcpy(keys->enc_key, digest, TW_KEY_BYTES);
        memcpy(keys->mac_key, digest + TW_KEY_BYTES, TW_KEY_BYTES);
    }
    tw_wipe(message, sizeof message);
    tw_wipe(digest, sizeof digest);
    return done;
}

int keys_uid(const uint8_t public_key[TW_PUBLIC_KEY_BYTES], uint8_t key_uid[TW_KEY_BYTES])
{
    return hash_sha256(public_key, TW_PUBLIC_KEY_BYTES, key_uid);
}

int keys_master(const uint8_t seed[SEED_BYTES], extended_key *master)
{
    static const uint8_t bitcoin_seed[12] = {'B', 'i', 't', 'c', 'o', 'i', 'n', ' ', 's', 'e', 'e', 'd'};
    uint8_t mac[SHA512_BYTES], public_key[TW_PUBLIC_KEY_BYTES];
    const int done = hash_hmac_sha512(bitcoin_seed, sizeof bitcoin_seed, seed, SEED_BYTES, mac) && curve_point(mac, public_key);
    if (done) {
        memcpy(master->private_key, mac, TW_KEY_BYTES);
        memcpy(master->chain_code, mac + TW_KEY_BYTES, TW_KEY_BYTES);
    }
    tw_wipe(mac, sizeof mac);
    return done;
}

/* The key becomes its child of this component. */
static int child(extended_key *key, const uint8_t component[TW_COMPONENT_BYTES])
{
    uint8_t message[1 + TW_KEY_BYTES + TW_COMPONENT_BYTES] = {0}, public_key[TW_PUBLIC_KEY_BYTES], mac[SHA512_BYTES];
    int done = 1;
    if (component[0] >= 0x80) { /* hardened: 00 and the private key */
        memcpy(message + 1, key->private_key, TW_KEY_BYTES);
    } else {
        done = curve_point(key->private_key, public_key) && curve_compress(public_key, message);
    }
    memcpy(message + 1 + TW_KEY_BYTES, component, TW_COMPONENT_BYTES);
    done = done && hash_hmac_sha512(key->chain_code, TW_KEY_BYTES, message, sizeof message, mac) && curve_add(key->private_key, mac);
    if (done) {
        memcpy(key->chain_code, mac + TW_KEY_BYTES, TW_KEY_BYTES);
    }
    tw_wipe(message, sizeof message);
    tw_wipe(mac, sizeof mac);
    return done;
}

int keys_derive(const extended_key *master, const uint8_t *path, size_t path_bytes, extended_key *derived)
{
    *derived = *master;
    for (size_t at = 0; at < path_bytes; at += TW_COMPONENT_BYTES) {
        if (!child(derived, path + at)) {
            tw_wipe(derived, sizeof *derived);
            return 0;
        }
    }
    return 1;
}
