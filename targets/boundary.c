/* SPDX-License-Identifier: Apache-2.0
   What stands between callers in C and the proved module on processors other than x86-64. The kit lowers a module for the calling convention
   of x86-64 Linux. tools/archive --target compiles this file once for each crate, with BOUNDARY_crate defined, beside the crate's module, in
   which each function tw_x that is named here is called tw_module_x. It is C, not proved, and moves arguments alone. Lengths are in bytes.

   - AArch64: a report of more than 16 bytes goes where register x8 points. The module takes that place as its first argument.
   - RISC-V: a result of one byte is extended to its whole register by the callee. The module leaves the rest of the register open.

   What both conventions have as the module has it is not here: pointers and lengths as arguments, reports of 16 bytes in two registers, on
   RISC-V also longer reports, whose place is the first argument. tools/archive fails where a function that needs one has none. */
#if !defined(__LP64__) || !(defined(__aarch64__) || defined(__riscv))
#error "for AArch64 and 64-bit RISC-V alone"
#endif

typedef unsigned char byte;
typedef unsigned long size; /* size_t, 8 bytes */

#define NAMED_IN_MODULE(name) tw_module_##name

#if defined(__aarch64__)
/* A report of 24 bytes: tw_answered, tw_walked, tw_tapped. */
typedef struct report {
    size words[3];
} report;

#if defined(BOUNDARY_library_engine)
report *NAMED_IN_MODULE(answer)(report *, void *, const byte *, size, const byte *, size, byte *, size);
report tw_answer(void *card, const byte *cmd, size cmd_bytes, const byte *supply, size supply_bytes, byte *buf, size buf_bytes)
{
    report r;
    NAMED_IN_MODULE(answer)(&r, card, cmd, cmd_bytes, supply, supply_bytes, buf, buf_bytes);
    return r;
}
#endif

#if defined(BOUNDARY_library_terminal)
report *NAMED_IN_MODULE(walk)(report *, const byte *, size);
report tw_walk(const byte *input, size input_bytes)
{
    report r;
    NAMED_IN_MODULE(walk)(&r, input, input_bytes);
    return r;
}
#endif

#if defined(BOUNDARY_library_card)
report *NAMED_IN_MODULE(tap)(report *, const byte *, size, const byte *, size);
report tw_tap(const byte *record, size record_bytes, const byte *factory, size factory_bytes)
{
    report r;
    NAMED_IN_MODULE(tap)(&r, record, record_bytes, factory, factory_bytes);
    return r;
}
#endif
#endif

#if defined(__riscv)
/* The module's result, as the whole register has it; of it the low byte is the result. */
#define LOW_BYTE(whole) ((byte)((whole) & 0xFF))

#if defined(BOUNDARY_library_card)
size NAMED_IN_MODULE(sound)(const void *);
byte tw_sound(const void *card)
{
    return LOW_BYTE(NAMED_IN_MODULE(sound)(card));
}

size NAMED_IN_MODULE(reset)(void *);
byte tw_reset(void *card)
{
    return LOW_BYTE(NAMED_IN_MODULE(reset)(card));
}

size NAMED_IN_MODULE(read)(void *, const byte *, size);
byte tw_read(void *card, const byte *record, size record_bytes)
{
    return LOW_BYTE(NAMED_IN_MODULE(read)(card, record, record_bytes));
}
#endif

#if defined(BOUNDARY_sha_c)
size NAMED_IN_MODULE(sha256)(const byte *, size, byte *, size);
byte tw_sha256(const byte *message, size message_bytes, byte *digest, size digest_bytes)
{
    return LOW_BYTE(NAMED_IN_MODULE(sha256)(message, message_bytes, digest, digest_bytes));
}
#endif

#if defined(BOUNDARY_aes_c)
size NAMED_IN_MODULE(cbc_encrypt)(const byte *, size, const byte *, size, byte *, size);
byte tw_cbc_encrypt(const byte *key, size key_bytes, const byte *iv, size iv_bytes, byte *buf, size buf_bytes)
{
    return LOW_BYTE(NAMED_IN_MODULE(cbc_encrypt)(key, key_bytes, iv, iv_bytes, buf, buf_bytes));
}

size NAMED_IN_MODULE(cbc_decrypt)(const byte *, size, const byte *, size, byte *, size);
byte tw_cbc_decrypt(const byte *key, size key_bytes, const byte *iv, size iv_bytes, byte *buf, size buf_bytes)
{
    return LOW_BYTE(NAMED_IN_MODULE(cbc_decrypt)(key, key_bytes, iv, iv_bytes, buf, buf_bytes));
}

size NAMED_IN_MODULE(cbc_mac)(const byte *, size, const byte *, size, byte *, size);
byte tw_cbc_mac(const byte *key, size key_bytes, const byte *text, size text_bytes, byte *mac, size mac_bytes)
{
    return LOW_BYTE(NAMED_IN_MODULE(cbc_mac)(key, key_bytes, text, text_bytes, mac, mac_bytes));
}
#endif

#if defined(BOUNDARY_aes_word_c)
size NAMED_IN_MODULE(cbc_mac_by_tables)(const byte *, size, const byte *, size, byte *, size);
byte tw_cbc_mac_by_tables(const byte *key, size key_bytes, const byte *text, size text_bytes, byte *mac, size mac_bytes)
{
    return LOW_BYTE(NAMED_IN_MODULE(cbc_mac_by_tables)(key, key_bytes, text, text_bytes, mac, mac_bytes));
}

size NAMED_IN_MODULE(cbc_encrypt_and_mac)(const byte *, size, const byte *, size, const byte *, size, const byte *, size, byte *, size, byte *,
                                          size);
byte tw_cbc_encrypt_and_mac(const byte *key, size key_bytes, const byte *iv, size iv_bytes, const byte *mac_key, size mac_key_bytes,
                            const byte *head, size head_bytes, byte *buf, size buf_bytes, byte *mac, size mac_bytes)
{
    return LOW_BYTE(NAMED_IN_MODULE(cbc_encrypt_and_mac)(key, key_bytes, iv, iv_bytes, mac_key, mac_key_bytes, head, head_bytes, buf, buf_bytes,
                                                         mac, mac_bytes));
}
#endif
#endif
