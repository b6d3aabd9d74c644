/* SHA-256 of "abc" and of no bytes over include/sha_c.h, and a wrong room: tools/hashes builds it as C11 and as C++17, links it and runs it. */
#include "sha_c.h"
#include "sha_c.h"
#include <string.h>

int main(void)
{
    static const uint8_t of_abc[TW_DIGEST_BYTES] = {0xba, 0x78, 0x16, 0xbf, 0x8f, 0x01, 0xcf, 0xea, 0x41, 0x41, 0x40,
                                                    0xde, 0x5d, 0xae, 0x22, 0x23, 0xb0, 0x03, 0x61, 0xa3, 0x96, 0x17,
                                                    0x7a, 0x9c, 0xb4, 0x10, 0xff, 0x61, 0xf2, 0x00, 0x15, 0xad};
    static const uint8_t of_nothing[TW_DIGEST_BYTES] = {0xe3, 0xb0, 0xc4, 0x42, 0x98, 0xfc, 0x1c, 0x14, 0x9a, 0xfb, 0xf4,
                                                        0xc8, 0x99, 0x6f, 0xb9, 0x24, 0x27, 0xae, 0x41, 0xe4, 0x64, 0x9b,
                                                        0x93, 0x4c, 0xa4, 0x95, 0x99, 0x1b, 0x78, 0x52, 0xb8, 0x55};
    const uint8_t abc[3] = {0x61, 0x62, 0x63};
    uint8_t digest[TW_DIGEST_BYTES + 1] = {0};
    uint8_t kept[TW_DIGEST_BYTES + 1];

    if (tw_sha256(abc, sizeof abc, digest, TW_DIGEST_BYTES) != TW_HASH_DONE || memcmp(digest, of_abc, TW_DIGEST_BYTES) != 0)
        return 1;
    if (tw_sha256(abc, 0, digest, TW_DIGEST_BYTES) != TW_HASH_DONE || memcmp(digest, of_nothing, TW_DIGEST_BYTES) != 0)
        return 2;
    memcpy(kept, digest, sizeof digest);
    if (tw_sha256(abc, sizeof abc, digest, sizeof digest) != TW_HASH_WRONG_ROOM || memcmp(digest, kept, sizeof digest) != 0)
        return 3;
    return 0;
}
