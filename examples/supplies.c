#include "supplies.h"

#include "curve.h"
#include "hash.h"

#include <string.h>

enum {
    P1_AT = 2, /* where P1 and P2 are in a command */
    P2_AT = 3,
    FIELD_BYTES = 1 + 1, /* tag and length before a field's content */
    FLAG_BYTES = 1,
    /* LOAD's data without a public key has no more bytes than an extended key: A1, then 81 and 82 with 32 bytes each. */
    LOAD_PRIVATE_MAX_BYTES = FIELD_BYTES + 2 * (FIELD_BYTES + TW_KEY_BYTES)
};

static uint8_t flag(int yes)
{
    return yes ? 0x01 : 0x00;
}

/* Kind 1: flag, AES key. The data is INIT's: 41, the terminal's point, IV, ciphertext. */
static size_t supply_init(const struct host *host, const uint8_t *data, uint8_t *supply)
{
    supply[0] = flag(curve_ecdh(host->card_key, data + 1, supply + FLAG_BYTES));
    return TW_SUPPLY_INIT_BYTES;
}

/* Kind 2: flag, encryption key, MAC key, salt, IV. The data is the terminal's point. */
static size_t supply_open(const struct host *host, uint8_t slot, const uint8_t *data, uint8_t *supply)
{
    uint8_t *const salt = supply + FLAG_BYTES + sizeof(channel_keys), *const iv = salt + TW_KEY_BYTES;
    uint8_t ecdh_secret[TW_KEY_BYTES] = {0};
    channel_keys keys = {{0}, {0}};
    supply[0] = flag(curve_ecdh(host->card_key, data, ecdh_secret));
    const int made = random_bytes(salt, TW_KEY_BYTES) && random_bytes(iv, TW_IV_BYTES) &&
                     keys_channel(ecdh_secret, host->card.slots[slot].key, salt, &keys);
    memcpy(supply + FLAG_BYTES, keys.enc_key, TW_KEY_BYTES);
    memcpy(supply + FLAG_BYTES + TW_KEY_BYTES, keys.mac_key, TW_KEY_BYTES);
    tw_wipe(ecdh_secret, sizeof ecdh_secret);
    tw_wipe(&keys, sizeof keys);
    return made ? TW_SUPPLY_OPEN_BYTES : 0;
}

/* Kind 3: a random number. */
static size_t supply_mutual(uint8_t *supply)
{
    return random_bytes(supply, TW_KEY_BYTES) ? TW_SUPPLY_MUTUAL_BYTES : 0;
}

/* Kind 4: the card's challenge, a random number. The card makes both cryptograms. */
static size_t supply_pair_first(uint8_t *supply)
{
    return random_bytes(supply, TW_KEY_BYTES) ? TW_SUPPLY_PAIR_FIRST_BYTES : 0;
}

/* Kind 5: the salt, a random number. The card makes the pairing key. */
static size_t supply_pair_final(uint8_t *supply)
{
    return random_bytes(supply, TW_KEY_BYTES) ? TW_SUPPLY_PAIR_FINAL_BYTES : 0;
}

/* The key that LOAD's data brings, and its public key; where the data has a public key too, it has to be this one. The engine has seen to
   the data's form: a seed, or A1 with the public key (80) or without, the private key (81), and for an extended key its chain code (82). */
static int loaded_key(uint8_t p1, const uint8_t *data, size_t data_bytes, extended_key *wallet, uint8_t public_key[TW_PUBLIC_KEY_BYTES])
{
    if (p1 == TW_P1_LOAD_SEED) {
        return keys_master(data, wallet) && curve_point(wallet->private_key, public_key);
    }
    const uint8_t *private_key = data + data_bytes - TW_KEY_BYTES;
    tw_wipe(wallet, sizeof *wallet);
    if (p1 == TW_P1_LOAD_EXTENDED) {
        memcpy(wallet->chain_code, private_key, TW_KEY_BYTES); /* the last field; the private key is the one before it */
        private_key -= FIELD_BYTES + TW_KEY_BYTES;
    }
    memcpy(wallet->private_key, private_key, TW_KEY_BYTES);
    const int given = data_bytes > LOAD_PRIVATE_MAX_BYTES;
    return curve_point(private_key, public_key) &&
           (!given || same_bytes(public_key, private_key - FIELD_BYTES - TW_PUBLIC_KEY_BYTES, TW_PUBLIC_KEY_BYTES));
}

/* Kind 6: flag, public key of the loaded key. The card makes the key UID; the host keeps the key, in place of the one before it. */
static size_t supply_load(struct host *host, uint8_t p1, const uint8_t *data, size_t data_bytes, uint8_t *supply)
{
    extended_key wallet;
    const int is_key = loaded_key(p1, data, data_bytes, &wallet, supply + FLAG_BYTES);
    supply[0] = flag(is_key);
    if (is_key) {
        host->wallet = wallet;
    }
    tw_wipe(&wallet, sizeof wallet);
    return TW_SUPPLY_LOAD_BYTES;
}

/* Kind 7: flag. The data is a path. */
static size_t supply_derive(const struct host *host, const uint8_t *data, size_t data_bytes, uint8_t *supply)
{
    extended_key derived;
    supply[0] = flag(keys_derive(&host->wallet, data, data_bytes, &derived));
    tw_wipe(&derived, sizeof derived);
    return TW_SUPPLY_DERIVE_BYTES;
}

/* Kind 8: public key, r, s. The data is the hash to sign; the key is that of the current path, which is empty for a plain key. */
static size_t supply_sign(const struct host *host, const uint8_t *data, uint8_t *supply)
{
    const tw_path *const path = &host->card.current;
    extended_key derived;
    const int made = keys_derive(&host->wallet, path->bytes, path->len, &derived) && curve_point(derived.private_key, supply) &&
                     curve_sign(derived.private_key, data, supply + TW_PUBLIC_KEY_BYTES);
    tw_wipe(&derived, sizeof derived);
    return made ? TW_SUPPLY_SIGN_BYTES : 0;
}

/* Kind 9: flag, public key, private key, which stays zero where the public key alone is wanted. The data is a path; with P1 00 it is empty,
   and the current path is meant. */
static size_t supply_export(const struct host *host, uint8_t p1, uint8_t p2, const uint8_t *data, size_t data_bytes, uint8_t *supply)
{
    const tw_path *const current = &host->card.current;
    const int of_current = p1 == TW_P1_EXPORT_CURRENT;
    extended_key derived;
    const int is_key = keys_derive(&host->wallet, of_current ? current->bytes : data, of_current ? current->len : data_bytes, &derived) &&
                       curve_point(derived.private_key, supply + FLAG_BYTES);
    supply[0] = flag(is_key);
    if (p2 == TW_P2_EXPORT_PRIVATE_AND_PUBLIC) {
        memcpy(supply + FLAG_BYTES + TW_PUBLIC_KEY_BYTES, derived.private_key, TW_KEY_BYTES);
    }
    tw_wipe(&derived, sizeof derived);
    return TW_SUPPLY_EXPORT_BYTES;
}

/* Kind 10: the entropy of a recovery phrase, random as keys are, 4 times P1 bytes; that P1 is 04 to 08 the engine has seen. The card makes the
   numbers of the words. The host keeps none of it: host_call wipes the supply. */
static size_t supply_mnemonic(uint8_t p1, uint8_t *supply)
{
    const size_t entropy_bytes = (size_t)TW_ENTROPY_BYTES_PER_CHECKSUM_BIT * p1;
    return random_bytes(supply, entropy_bytes) ? entropy_bytes : 0;
}

size_t supply_make(struct host *host, uint8_t kind, const uint8_t *command, const uint8_t *data, size_t data_bytes,
                   uint8_t supply[TW_SUPPLY_MAX_BYTES])
{
    switch (kind) {
    case TW_SUPPLY_INIT:
        return supply_init(host, data, supply);
    case TW_SUPPLY_OPEN:
        return supply_open(host, command[P1_AT], data, supply);
    case TW_SUPPLY_MUTUAL:
        return supply_mutual(supply);
    case TW_SUPPLY_PAIR_FIRST:
        return supply_pair_first(supply);
    case TW_SUPPLY_PAIR_FINAL:
        return supply_pair_final(supply);
    case TW_SUPPLY_LOAD:
        return supply_load(host, command[P1_AT], data, data_bytes, supply);
    case TW_SUPPLY_DERIVE:
        return supply_derive(host, data, data_bytes, supply);
    case TW_SUPPLY_SIGN:
        return supply_sign(host, data, supply);
    case TW_SUPPLY_EXPORT:
        return supply_export(host, command[P1_AT], command[P2_AT], data, data_bytes, supply);
    case TW_SUPPLY_MNEMONIC:
        return supply_mnemonic(command[P1_AT], supply);
    default:
        return 0;
    }
}
