/* Holds the key derivations of keys.c to the numbers of docs/INTEGRATION.md, 5.3. Both ends of host.c share them, but for the hashes of PAIR
   and LOAD, which the card makes itself: a mistake that both ends make alike shows here and not in host.c.

   Usage: numbers PAGE. Each number is worked out and has to be the one that the page has after its name. Exit status: 0 where all are, 1
   where one is not, 2 for a wrong use. Lengths are in bytes. */
#include "curve.h"
#include "hash.h"
#include "published.h"

#include <stdio.h>
#include <string.h>

enum {
    PAGE_MAX_BYTES = 1 << 20,
    CONTENT_BYTES = TW_PIN_BYTES + TW_PUK_BYTES + TW_KEY_BYTES, /* what INIT enciphers */
    CIPHERTEXT_AT = TW_HEADER_BYTES + 1 + TW_MAC_BYTES,         /* in a sealed command */
    CIPHERTEXT_BYTES = 64,
    NUMBER_MAX_BYTES = 129
};

static char page[PAGE_MAX_BYTES];
static unsigned checks, failed;

/* The page's text from section 5.3 on. */
static const char *numbers_of(const char *name)
{
    FILE *const file = fopen(name, "rb");
    const size_t page_bytes = file == NULL ? 0 : fread(page, 1, sizeof page - 1, file);
    if (file != NULL) {
        (void)fclose(file);
    }
    page[page_bytes] = '\0';
    return strstr(page, "\n### 5.3 ");
}

/* The page has a line that begins with this name and ends with this number, in hexadecimal. The name has the end of the line before it. */
static void number(const char *section, const char *name, const uint8_t *bytes, size_t count)
{
    char digits[2 * NUMBER_MAX_BYTES + 2];
    for (size_t at = 0; at < count; at++) {
        (void)snprintf(digits + 2 * at, 3, "%02X", bytes[at]);
    }
    memcpy(digits + 2 * count, "\n", 2);
    const char *found = strstr(section, name);
    if (found != NULL) {
        found += strlen(name);
        found += strspn(found, " ");
    }
    const int same = found != NULL && strncmp(found, digits, strlen(digits)) == 0;
    checks++;
    failed += !same;
    printf("%s: %s%s", name + 1 + strspn(name + 1, " "), same ? "" : "the page has another one than ", digits);
}

/* Bytes that rise by one. */
static const uint8_t *rising(uint8_t first)
{
    static uint8_t all[UINT8_MAX + 1 + TW_KEY_BYTES];
    for (size_t at = 0; at < sizeof all; at++) {
        all[at] = (uint8_t)at;
    }
    return all + first;
}

/* Both ends' key pairs, their ECDH secret from either side, and INIT's ciphertext with it. */
static int key_pairs_and_init(const char *section, uint8_t ecdh_secret[TW_KEY_BYTES])
{
    static const uint8_t no_header[TW_HEADER_BYTES];
    uint8_t card_point[TW_PUBLIC_KEY_BYTES], point[TW_PUBLIC_KEY_BYTES], other_secret[TW_KEY_BYTES];
    uint8_t content[CONTENT_BYTES], sealed[TW_SEAL_ROOM_BYTES];
    tw_session once = {{0}, {0}, {0}};
    int done = curve_point(rising(0x01), card_point) && curve_point(rising(0x21), point) && curve_ecdh(rising(0x01), point, ecdh_secret) &&
               curve_ecdh(rising(0x21), card_point, other_secret) && same_bytes(ecdh_secret, other_secret, TW_KEY_BYTES);
    memcpy(content, "123456123456789012", TW_PIN_BYTES + TW_PUK_BYTES);
    memcpy(content + TW_PIN_BYTES + TW_PUK_BYTES, rising(0x70), TW_KEY_BYTES);
    memcpy(once.enc_key, ecdh_secret, TW_KEY_BYTES);
    memcpy(once.iv, rising(0xC0), TW_IV_BYTES);
    done = done && tw_seal(&once, no_header, content, sizeof content, sealed, sizeof sealed).refusal == TW_DONE;
    number(section, "\ncard's private key    01 .. 20           its public key", card_point, sizeof card_point);
    number(section, "\nterminal's            21 .. 40           its public key", point, sizeof point);
    number(section, "\nECDH secret, 32 bytes", ecdh_secret, TW_KEY_BYTES);
    number(section, "\n  ciphertext, 64 bytes", sealed + CIPHERTEXT_AT, CIPHERTEXT_BYTES);
    return done;
}

/* PAIR's hashes, OPEN's keys, and the first sealed command. */
static int channel(const char *section, const uint8_t ecdh_secret[TW_KEY_BYTES])
{
    static const uint8_t header[TW_HEADER_BYTES] = {TW_CLASS_CARD, TW_INS_MUTUAL, 0x00, 0x00};
    const uint8_t *const secret = rising(0x70);
    uint8_t card_cryptogram[TW_KEY_BYTES], client_cryptogram[TW_KEY_BYTES], pairing_key[TW_KEY_BYTES], sealed[TW_SEAL_ROOM_BYTES];
    channel_keys keys;
    tw_session session;
    int done = keys_pairing(secret, rising(0x90), card_cryptogram) && keys_pairing(secret, rising(0xB0), client_cryptogram) &&
               keys_pairing(secret, rising(0xD0), pairing_key) && keys_channel(ecdh_secret, pairing_key, rising(0x10), &keys);
    memcpy(session.enc_key, keys.enc_key, TW_KEY_BYTES);
    memcpy(session.mac_key, keys.mac_key, TW_KEY_BYTES);
    memcpy(session.iv, rising(0xF0), TW_IV_BYTES);
    const tw_told told = tw_seal(&session, header, rising(0x42), TW_KEY_BYTES, sealed, sizeof sealed);
    done = done && told.refusal == TW_DONE && told.count == 69;
    number(section, "\n  card cryptogram, 32 bytes", card_cryptogram, sizeof card_cryptogram);
    number(section, "\n  client cryptogram, 32 bytes", client_cryptogram, sizeof client_cryptogram);
    number(section, "\n  pairing key, 32 bytes", pairing_key, sizeof pairing_key);
    number(section, "\n  encryption key, 32 bytes", keys.enc_key, TW_KEY_BYTES);
    number(section, "\n  MAC key, 32 bytes", keys.mac_key, TW_KEY_BYTES);
    number(section, "\nMUTUAL of 42 .. 61, sealed, 69 bytes", sealed, 69);
    return done;
}

/* A plain key, and an extended one by its seed, with a path and a signature. */
static int wallets(const char *section)
{
    uint8_t public_key[TW_PUBLIC_KEY_BYTES], key_uid[TW_KEY_BYTES], signature[CURVE_SIGNATURE_BYTES];
    extended_key master, derived;
    int done = curve_point(rising(0x54), public_key) && keys_uid(public_key, key_uid);
    number(section, "\nLOAD: private key     54 .. 73           its public key", public_key, sizeof public_key);
    number(section, "\n  key UID, 32 bytes", key_uid, sizeof key_uid);
    done = done && keys_master(PUBLISHED_SEED, &master) && curve_point(master.private_key, public_key) && keys_uid(public_key, key_uid);
    number(section, "\n  master's private key, 32 bytes", master.private_key, TW_KEY_BYTES);
    number(section, "\n  master's chain code, 32 bytes", master.chain_code, TW_KEY_BYTES);
    number(section, "\n  master's key UID, 32 bytes", key_uid, sizeof key_uid);
    done = done && keys_derive(&master, PUBLISHED_PATH, sizeof PUBLISHED_PATH, &derived) &&
           curve_point(derived.private_key, public_key) && same_bytes(public_key, PUBLISHED_PUBLIC_KEY, sizeof public_key) &&
           curve_sign(derived.private_key, rising(0x01), signature);
    number(section, "\n  path's private key, 32 bytes", derived.private_key, TW_KEY_BYTES);
    number(section, "\n  path's public key, 65 bytes", public_key, sizeof public_key);
    number(section, "\n  r, 32 bytes", signature, TW_KEY_BYTES);
    number(section, "\n  s, 32 bytes", signature + TW_KEY_BYTES, TW_KEY_BYTES);
    return done;
}

int main(int argc, char **argv)
{
    uint8_t blinding[CURVE_KEY_BYTES], ecdh_secret[TW_KEY_BYTES];
    const char *const section = argc == 2 ? numbers_of(argv[1]) : NULL;
    if (section == NULL) {
        fprintf(stderr, "usage: numbers PAGE, which is docs/INTEGRATION.md\n");
        return 2;
    }
    if (!random_bytes(blinding, sizeof blinding) || !curve_begin(blinding) || !key_pairs_and_init(section, ecdh_secret) ||
        !channel(section, ecdh_secret) || !wallets(section)) {
        printf("numbers: a key could not be made\n");
        return 1;
    }
    curve_end();
    printf("numbers: %u checks, %u failed\n", checks, failed);
    return failed == 0 ? 0 : 1;
}
