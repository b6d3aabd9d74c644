#include "secrets_stack.h"

#include <string.h>

enum {
    STACK_BYTES = 256 * 1024,
    STACK_ALIGNMENT = 16,
    PAINT = 0xC9,
    PIECE_BYTES = 8
};

/* It grows from its end down. */
static _Alignas(STACK_ALIGNMENT) uint8_t stack[STACK_BYTES];

void on_stack(void (*function)(void))
{
    memset(stack, PAINT, sizeof stack);
    uint8_t *const end = stack + sizeof stack;
    __asm__ volatile("movq %%rsp, %%r12\n\t"
                     "movq %0, %%rsp\n\t"
                     "call *%1\n\t"
                     "movq %%r12, %%rsp"
                     :
                     : "r"(end), "r"(function)
                     : "rax", "rcx", "rdx", "rsi", "rdi", "r8", "r9", "r10", "r11", "r12", "xmm0", "xmm1", "xmm2", "xmm3", "xmm4", "xmm5",
                       "xmm6", "xmm7", "xmm8", "xmm9", "xmm10", "xmm11", "xmm12", "xmm13", "xmm14", "xmm15", "cc", "memory");
}

/* Where the lowest byte is that is not paint. */
static size_t lowest(void)
{
    size_t at = 0;
    while (at < sizeof stack && stack[at] == PAINT) {
        at++;
    }
    return at;
}

size_t stack_used_bytes(void)
{
    return sizeof stack - lowest();
}

size_t stack_lowest_zeros(void)
{
    const size_t from = lowest();
    size_t at = from;
    while (at < sizeof stack && stack[at] == 0) {
        at++;
    }
    return at - from;
}

/* The longest piece of a secret that begins here on the stack, in bytes. */
static size_t piece_bytes_at(size_t at, const uint8_t *secret, size_t secret_bytes)
{
    size_t longest = 0;
    for (size_t from = 0; from < secret_bytes; from++) {
        size_t bytes = 0;
        while (from + bytes < secret_bytes && at + bytes < sizeof stack && stack[at + bytes] == secret[from + bytes]) {
            bytes++;
        }
        longest = bytes > longest ? bytes : longest;
    }
    return longest;
}

size_t stack_pieces(const uint8_t *secret, size_t secret_bytes)
{
    const size_t least_bytes = secret_bytes < PIECE_BYTES ? secret_bytes : PIECE_BYTES;
    size_t found = 0, at = lowest();
    while (at < sizeof stack) {
        const size_t bytes = piece_bytes_at(at, secret, secret_bytes);
        found += bytes >= least_bytes;
        at += bytes >= least_bytes ? bytes : 1;
    }
    return found;
}
