/* Whole lives of cards from a seeded generator, for a comparison of processors: what a terminal and a host do, and in between commands,
   supplies, records, rooms and cards that are damaged. Lengths are in bytes. */
#ifndef PORT_LIFE_H
#define PORT_LIFE_H

#include <stddef.h>

/* One card, from FRESH on, for so many steps. */
void play_life(size_t steps);
/* How many answers of 9000 this instruction had. */
size_t successes(unsigned ins);

#endif
