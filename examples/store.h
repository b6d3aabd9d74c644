/* One file that outlasts a power cut. It has either the bytes before a call or those after it, never some of each. Lengths are in bytes. */
#ifndef STORE_H
#define STORE_H

#include <stddef.h>
#include <stdint.h>

/* Takes the folder, for this process alone until it ends. 0: there is no such folder, or another process has it. */
int store_open(const char *folder);

/* Whether there is a file. */
int store_has_file(void);

/* Replaces the file durably. 1: when the call comes back, the bytes are on the disk. 0: they may or may not be. */
int store_write(const uint8_t *bytes, size_t count);

/* Reads the file. Gives how many bytes it has; 0: there is none, it cannot be read, or it has more than the room. */
size_t store_read(uint8_t *bytes, size_t room_bytes);

#endif
