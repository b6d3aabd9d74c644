/* Arithmetic on the curve secp256k1, by libsecp256k1. A private key is a number of 32 bytes, the high byte first; a public key, or point,
   is 04, x and y, 65 bytes. A function that can fail gives 1 where it is done and 0 where it is not. Lengths are in bytes. */
#ifndef CURVE_H
#define CURVE_H

#include <stddef.h>
#include <stdint.h>

enum {
    CURVE_KEY_BYTES = 32,
    CURVE_POINT_BYTES = 1 + 32 + 32,
    CURVE_COMPRESSED_BYTES = 1 + 32, /* 02 or 03, by y even or odd, and x */
    CURVE_SIGNATURE_BYTES = 32 + 32  /* r and s */
};

/* Before all else, with random bytes that blind the arithmetic on secret numbers; and after all else. */
int curve_begin(const uint8_t blinding[CURVE_KEY_BYTES]);
void curve_end(void);

/* The point of a private key. 0: the key is 0, or the curve's order q or more. */
int curve_point(const uint8_t private_key[CURVE_KEY_BYTES], uint8_t point[CURVE_POINT_BYTES]);

/* The same point in its short form. 0: it is not on the curve. */
int curve_compress(const uint8_t point[CURVE_POINT_BYTES], uint8_t compressed[CURVE_COMPRESSED_BYTES]);

/* ECDH: the x coordinate of private key times point, not hashed. 0: the point is not on the curve. */
int curve_ecdh(const uint8_t private_key[CURVE_KEY_BYTES], const uint8_t point[CURVE_POINT_BYTES], uint8_t secret[CURVE_KEY_BYTES]);

/* Adds a number to a private key, mod q. 0: the number is q or more, or the sum is 0. */
int curve_add(uint8_t private_key[CURVE_KEY_BYTES], const uint8_t number[CURVE_KEY_BYTES]);

/* ECDSA of a hash of 32 bytes: r and s, the lower s, the nonce by RFC 6979. */
int curve_sign(const uint8_t private_key[CURVE_KEY_BYTES], const uint8_t hash[32], uint8_t signature[CURVE_SIGNATURE_BYTES]);

/* Whether a signature, in DER, is that of the hash by the point's key, and its s is the lower one. */
int curve_verify(const uint8_t point[CURVE_POINT_BYTES], const uint8_t hash[32], const uint8_t *der, size_t der_bytes);

#endif
