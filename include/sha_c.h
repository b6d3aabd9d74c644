/* SPDX-License-Identifier: Apache-2.0

   SHA-256 (FIPS 180-4) from the proved library libsha_c.a, for C and C++ on Linux for x86-64, AArch64 and 64-bit RISC-V. Lengths are in bytes.
   `tools/archive sha_c` proves and builds the library as target/staticlib/libsha_c.a. crates/sha_c/specs/Calls.antt has what is proved of the call, docs/RULES.md, 7.7 to 7.10, has the
   rules. */
#ifndef TW_SHA_C_H
#define TW_SHA_C_H

#include <stddef.h>
#include <stdint.h>

#ifdef __cplusplus
extern "C" {
#endif

#define TW_DIGEST_BYTES 32

/* What tw_sha256 answers. */
#define TW_HASH_DONE 0
#define TW_HASH_WRONG_ROOM 1

/* SHA-256 of the message, written to the TW_DIGEST_BYTES bytes of `digest`. Where digest_bytes is another number the answer is TW_HASH_WRONG_ROOM, and
   nothing is written. The message is read where it lies, and the stack does not grow with it. Its last bytes may stay on the stack: tw_wipe_stack of
   treadlewisp.h wipes them.

   The caller ensures that
   - message points to message_bytes bytes that may be read, and digest to digest_bytes bytes that may be written;
   - the two do not overlap, and nobody else writes to them during the call;
   - no pointer is null but beside a length of 0, which is tested and not proved (treadlewisp.h), and each length is under 2^63. */
uint8_t tw_sha256(const uint8_t *message, size_t message_bytes, uint8_t *digest, size_t digest_bytes);

#ifdef __cplusplus
}
#endif

#endif
