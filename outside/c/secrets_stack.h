/* A painted stack for one call, and the search for what the call has left on it. The search runs on another stack, so it leaves nothing on
   this one. Lengths are in bytes. */
#ifndef SECRETS_STACK_H
#define SECRETS_STACK_H

#include <stddef.h>
#include <stdint.h>

/* Paints the stack, and makes the call on it. */
void on_stack(void (*function)(void));

/* How much of the stack was used: from its end to the lowest byte that is not paint. */
size_t stack_used_bytes(void);

/* How many bytes of zeros begin at the lowest byte that is not paint. */
size_t stack_lowest_zeros(void);

/* How many pieces of a secret are on the stack: at least 8 bytes of it one after the other, or all of it where it is shorter. */
size_t stack_pieces(const uint8_t *secret, size_t secret_bytes);

#endif
