#include "hash.h"

#include <limits.h>
#include <openssl/crypto.h>
#include <openssl/evp.h>
#include <openssl/hmac.h>
#include <openssl/rand.h>

int hash_sha256(const uint8_t *message, size_t message_bytes, uint8_t digest[SHA256_BYTES])
{
    return EVP_Digest(message, message_bytes, digest, NULL, EVP_sha256(), NULL) == 1;
}

int hash_sha512(const uint8_t *message, size_t message_bytes, uint8_t digest[SHA512_BYTES])
{
    return EVP_Digest(message, message_bytes, digest, NULL, EVP_sha512(), NULL) == 1;
}

int hash_hmac_sha512(const uint8_t *key, size_t key_bytes, const uint8_t *message, size_t message_bytes, uint8_t mac[SHA512_BYTES])
{
    unsigned int mac_bytes = 0;
    return key_bytes <= INT_MAX && HMAC(EVP_sha512(), key, (int)key_bytes, message, message_bytes, mac, &mac_bytes) != NULL &&
           mac_bytes == SHA512_BYTES;
}

int random_bytes(uint8_t *bytes, size_t count)
{
    return count <= INT_MAX && RAND_priv_bytes(bytes, (int)count) == 1;
}

int same_bytes(const uint8_t *a, const uint8_t *b, size_t count)
{
    return CRYPTO_memcmp(a, b, count) == 0;
}
