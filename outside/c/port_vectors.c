/* port_vectors FILE..: the published vectors of AES-256 and SHA-256 by the libraries aes_c, aes_word_c and sha_c, as they are built for this
   processor. The files are those of crates/aes_vectors/data and crates/sha_vectors/data. An entry of AES holds where the plain engine and the
   one from tables encrypt to its ciphertext and the plain engine decrypts to its plaintext; ECB of one block is CBC with an IV of zeros. An entry
   of SHA-256 holds where the digest is its own; Len counts bits. Lengths are in bytes elsewhere. */
#include "sha_c.h"

#include <ctype.h>
#include <stdio.h>
#include <stdlib.h>
#include <string.h>

enum {
    KEY_BYTES = 32,
    BLOCK_BYTES = 16,
    FIELD_MAX_BYTES = 1024,
    LINE_MAX_BYTES = 4096,
    MILLION = 1000000
};

uint8_t tw_cbc_encrypt(const uint8_t *key, size_t key_bytes, const uint8_t *iv, size_t iv_bytes, uint8_t *buf, size_t buf_bytes);
uint8_t tw_cbc_decrypt(const uint8_t *key, size_t key_bytes, const uint8_t *iv, size_t iv_bytes, uint8_t *buf, size_t buf_bytes);
uint8_t tw_cbc_encrypt_and_mac(const uint8_t *key, size_t key_bytes, const uint8_t *iv, size_t iv_bytes, const uint8_t *mac_key,
                               size_t mac_key_bytes, const uint8_t *head, size_t head_bytes, uint8_t *buf, size_t buf_bytes, uint8_t *mac,
                               size_t mac_bytes);

typedef struct field {
    size_t count;
    uint8_t at[FIELD_MAX_BYTES];
} field;

static field key, iv, plaintext, ciphertext, message, digest;
static size_t message_bytes, ciphers, hashes, failed;

static void check(int holds, const char *what, const char *file)
{
    if (!holds) {
        failed++;
        printf("port_vectors: %s: %s\n", file, what);
    }
}

static field hex(const char *text)
{
    field f = {0, {0}};
    for (; isxdigit((unsigned char)text[0]) && isxdigit((unsigned char)text[1]) && f.count < sizeof f.at; text += 2) {
        const char two[3] = {text[0], text[1], 0};
        f.at[f.count++] = (uint8_t)strtoul(two, NULL, 16);
    }
    return f;
}

static int same(const uint8_t *found, const field *wanted)
{
    return memcmp(found, wanted->at, wanted->count) == 0;
}

static void cipher_entry(const char *file)
{
    uint8_t buffer[FIELD_MAX_BYTES], mac[BLOCK_BYTES];
    const size_t bytes = plaintext.count;
    check(key.count == KEY_BYTES && iv.count == BLOCK_BYTES && bytes > 0 && bytes == ciphertext.count, "an entry's lengths", file);
    memcpy(buffer, plaintext.at, bytes);
    check(tw_cbc_encrypt(key.at, key.count, iv.at, iv.count, buffer, bytes) == 0 && same(buffer, &ciphertext), "encrypted", file);
    check(tw_cbc_decrypt(key.at, key.count, iv.at, iv.count, buffer, bytes) == 0 && same(buffer, &plaintext), "decrypted", file);
    check(tw_cbc_encrypt_and_mac(key.at, key.count, iv.at, iv.count, key.at, key.count, iv.at, iv.count, buffer, bytes, mac, sizeof mac) == 0 &&
              same(buffer, &ciphertext),
          "encrypted by tables", file);
    ciphers++;
}

static void hash_entry(const char *file)
{
    uint8_t found[TW_DIGEST_BYTES];
    check(digest.count == TW_DIGEST_BYTES && message_bytes <= message.count, "an entry's lengths", file);
    check(tw_sha256(message.at, message_bytes, found, sizeof found) == TW_HASH_DONE && same(found, &digest), "hashed", file);
    hashes++;
}

/* One line of a file: NAME = VALUE. The last field of an entry tries it. */
static void take(const char *name, const char *value, const char *file)
{
    const field f = hex(value);
    if (strcmp(name, "COUNT") == 0) {
        memset(&iv, 0, sizeof iv);
        iv.count = BLOCK_BYTES;
        plaintext.count = ciphertext.count = 0;
    } else if (strcmp(name, "KEY") == 0) {
        key = f;
    } else if (strcmp(name, "IV") == 0) {
        iv = f;
    } else if (strcmp(name, "PLAINTEXT") == 0) {
        plaintext = f;
    } else if (strcmp(name, "CIPHERTEXT") == 0) {
        ciphertext = f;
    } else if (strcmp(name, "Len") == 0) {
        message_bytes = strtoul(value, NULL, 10) / 8;
    } else if (strcmp(name, "Msg") == 0) {
        message = f;
    } else if (strcmp(name, "MD") == 0) {
        digest = f;
        hash_entry(file);
    }
    if (plaintext.count > 0 && ciphertext.count > 0) {
        cipher_entry(file);
        plaintext.count = ciphertext.count = 0;
    }
}

static int play(const char *path)
{
    char line[LINE_MAX_BYTES], name[16], value[LINE_MAX_BYTES];
    FILE *file = fopen(path, "r");
    if (file == NULL) {
        perror(path);
        return 0;
    }
    while (fgets(line, sizeof line, file) != NULL) {
        if (sscanf(line, "%15[A-Za-z] = %4095s", name, value) == 2) {
            take(name, value, path);
        }
    }
    fclose(file);
    return 1;
}

/* FIPS 180: a million bytes 61. */
static void million(void)
{
    static uint8_t long_message[MILLION];
    uint8_t found[TW_DIGEST_BYTES];
    const field wanted = hex("cdc76e5c9914fb9281a1c7e284d73e67f1809a48a497200e046d39ccc7112cd0");
    memset(long_message, 0x61, sizeof long_message);
    check(tw_sha256(long_message, sizeof long_message, found, sizeof found) == TW_HASH_DONE && same(found, &wanted), "hashed", "a million bytes");
    hashes++;
}

int main(int count, char **words)
{
    for (int k = 1; k < count; k++) {
        if (!play(words[k])) {
            return 1;
        }
    }
    million();
    printf("AES-256: %zu entries, SHA-256: %zu entries, %zu failed\n", ciphers, hashes, failed);
    return failed == 0 ? 0 : 1;
}
