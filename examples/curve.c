#include "curve.h"

#include <secp256k1.h>
#include <secp256k1_ecdh.h>
#include <string.h>

static secp256k1_context *context;

int curve_begin(const uint8_t blinding[CURVE_KEY_BYTES])
{
    context = secp256k1_context_create(SECP256K1_CONTEXT_NONE);
    return context != NULL && secp256k1_context_randomize(context, blinding);
}

void curve_end(void)
{
    secp256k1_context_destroy(context);
    context = NULL;
}

/* A point as libsecp256k1 holds it. It would also take points that begin with 06 or 07; Keycard has none. */
static int parse(const uint8_t point[CURVE_POINT_BYTES], secp256k1_pubkey *parsed)
{
    return point[0] == 0x04 && secp256k1_ec_pubkey_parse(context, parsed, point, CURVE_POINT_BYTES);
}

int curve_point(const uint8_t private_key[CURVE_KEY_BYTES], uint8_t point[CURVE_POINT_BYTES])
{
    secp256k1_pubkey parsed;
    size_t point_bytes = CURVE_POINT_BYTES;
    return secp256k1_ec_pubkey_create(context, &parsed, private_key) &&
           secp256k1_ec_pubkey_serialize(context, point, &point_bytes, &parsed, SECP256K1_EC_UNCOMPRESSED);
}

int curve_compress(const uint8_t point[CURVE_POINT_BYTES], uint8_t compressed[CURVE_COMPRESSED_BYTES])
{
    secp256k1_pubkey parsed;
    size_t compressed_bytes = CURVE_COMPRESSED_BYTES;
    return parse(point, &parsed) &&
           secp256k1_ec_pubkey_serialize(context, compressed, &compressed_bytes, &parsed, SECP256K1_EC_COMPRESSED);
}

/* What secp256k1_ecdh makes of the shared point. Without it, it would give SHA-256 of the point, which is no Keycard's secret. */
static int x_alone(unsigned char *secret, const unsigned char *x, const unsigned char *y, void *unused)
{
    (void)y;
    (void)unused;
    memcpy(secret, x, CURVE_KEY_BYTES);
    return 1;
}

int curve_ecdh(const uint8_t private_key[CURVE_KEY_BYTES], const uint8_t point[CURVE_POINT_BYTES], uint8_t secret[CURVE_KEY_BYTES])
{
    secp256k1_pubkey parsed;
    return parse(point, &parsed) && secp256k1_ecdh(context, secret, &parsed, private_key, x_alone, NULL);
}

int curve_add(uint8_t private_key[CURVE_KEY_BYTES], const uint8_t number[CURVE_KEY_BYTES])
{
    return secp256k1_ec_seckey_tweak_add(context, private_key, number);
}

int curve_sign(const uint8_t private_key[CURVE_KEY_BYTES], const uint8_t hash[32], uint8_t signature[CURVE_SIGNATURE_BYTES])
{
    secp256k1_ecdsa_signature made;
    return secp256k1_ecdsa_sign(context, &made, hash, private_key, NULL, NULL) &&
           secp256k1_ecdsa_signature_serialize_compact(context, signature, &made);
}

int curve_verify(const uint8_t point[CURVE_POINT_BYTES], const uint8_t hash[32], const uint8_t *der, size_t der_bytes)
{
    secp256k1_pubkey parsed;
    secp256k1_ecdsa_signature signature;
    return parse(point, &parsed) && secp256k1_ecdsa_signature_parse_der(context, &signature, der, der_bytes) &&
           secp256k1_ecdsa_verify(context, &signature, hash, &parsed); /* takes the lower s alone */
}
