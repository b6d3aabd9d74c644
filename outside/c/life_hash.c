#include "life_hash.h"

#include <string.h>

enum {
    BLOCK_BYTES = 64,
    DIGEST_BYTES = 32,
    WORDS = 8, /* of the hash */
    ROUNDS = 64
};

/* FIPS 180-4, 4.2.2. */
static const uint32_t K[ROUNDS] = {
    0x428a2f98, 0x71374491, 0xb5c0fbcf, 0xe9b5dba5, 0x3956c25b, 0x59f111f1, 0x923f82a4, 0xab1c5ed5, 0xd807aa98, 0x12835b01, 0x243185be,
    0x550c7dc3, 0x72be5d74, 0x80deb1fe, 0x9bdc06a7, 0xc19bf174, 0xe49b69c1, 0xefbe4786, 0x0fc19dc6, 0x240ca1cc, 0x2de92c6f, 0x4a7484aa,
    0x5cb0a9dc, 0x76f988da, 0x983e5152, 0xa831c66d, 0xb00327c8, 0xbf597fc7, 0xc6e00bf3, 0xd5a79147, 0x06ca6351, 0x14292967, 0x27b70a85,
    0x2e1b2138, 0x4d2c6dfc, 0x53380d13, 0x650a7354, 0x766a0abb, 0x81c2c92e, 0x92722c85, 0xa2bfe8a1, 0xa81a664b, 0xc24b8b70, 0xc76c51a3,
    0xd192e819, 0xd6990624, 0xf40e3585, 0x106aa070, 0x19a4c116, 0x1e376c08, 0x2748774c, 0x34b0bcb5, 0x391c0cb3, 0x4ed8aa4a, 0x5b9cca4f,
    0x682e6ff3, 0x748f82ee, 0x78a5636f, 0x84c87814, 0x8cc70208, 0x90befffa, 0xa4506ceb, 0xbef9a3f7, 0xc67178f2};

/* FIPS 180-4, 5.3.3. */
static const uint32_t INITIAL[WORDS] = {0x6a09e667, 0xbb67ae85, 0x3c6ef372, 0xa54ff53a, 0x510e527f, 0x9b05688c, 0x1f83d9ab, 0x5be0cd19};

static uint32_t rotated(uint32_t word, unsigned right)
{
    return word >> right | word << (32 - right);
}

static void schedule(const uint8_t block[BLOCK_BYTES], uint32_t w[ROUNDS])
{
    for (size_t t = 0; t < 16; t++) {
        const uint8_t *const bytes = block + 4 * t;
        w[t] = (uint32_t)bytes[0] << 24 | (uint32_t)bytes[1] << 16 | (uint32_t)bytes[2] << 8 | bytes[3];
    }
    for (size_t t = 16; t < ROUNDS; t++) {
        const uint32_t x = w[t - 15], y = w[t - 2];
        const uint32_t small_0 = rotated(x, 7) ^ rotated(x, 18) ^ x >> 3, small_1 = rotated(y, 17) ^ rotated(y, 19) ^ y >> 10;
        w[t] = w[t - 16] + small_0 + w[t - 7] + small_1;
    }
}

static void compress(uint32_t hash[WORDS], const uint8_t block[BLOCK_BYTES])
{
    uint32_t w[ROUNDS], v[WORDS]; /* v: a to h of the standard */
    schedule(block, w);
    memcpy(v, hash, sizeof v);
    for (size_t t = 0; t < ROUNDS; t++) {
        const uint32_t a = v[0], e = v[4];
        const uint32_t big_1 = rotated(e, 6) ^ rotated(e, 11) ^ rotated(e, 25), choice = (e & v[5]) ^ (~e & v[6]);
        const uint32_t big_0 = rotated(a, 2) ^ rotated(a, 13) ^ rotated(a, 22), majority = (a & v[1]) ^ (a & v[2]) ^ (v[1] & v[2]);
        const uint32_t t1 = v[7] + big_1 + choice + K[t] + w[t];
        memmove(v + 1, v, (WORDS - 1) * sizeof v[0]);
        v[0] = t1 + big_0 + majority;
        v[4] += t1;
    }
    for (size_t n = 0; n < WORDS; n++) {
        hash[n] += v[n];
    }
}

text hashed(text message)
{
    uint8_t padded[sizeof message.bytes + 2 * BLOCK_BYTES] = {0};
    const size_t padded_bytes = (message.count + 1 + 8 + BLOCK_BYTES - 1) / BLOCK_BYTES * BLOCK_BYTES;
    const uint64_t bits = 8 * (uint64_t)message.count; /* the length in the padding is in bits */
    uint32_t hash[WORDS];
    uint8_t digest[DIGEST_BYTES];
    memcpy(padded, message.bytes, message.count);
    padded[message.count] = 0x80;
    for (size_t n = 0; n < 8; n++) {
        padded[padded_bytes - 1 - n] = (uint8_t)(bits >> 8 * n);
    }
    memcpy(hash, INITIAL, sizeof hash);
    for (size_t at = 0; at < padded_bytes; at += BLOCK_BYTES) {
        compress(hash, padded + at);
    }
    for (size_t n = 0; n < DIGEST_BYTES; n++) {
        digest[n] = (uint8_t)(hash[n / 4] >> (24 - 8 * (n % 4)));
    }
    return text_of(digest, sizeof digest);
}

text hashed_with(text pairing_secret, text after)
{
    return hashed(joined(pairing_secret, after));
}
