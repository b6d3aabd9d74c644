/* The life of one card, as its terminal sees it: which commands it sends in which order, and what has to come back. Each check is a line of
   standard output. Lengths are in bytes. */
#ifndef LIFE_H
#define LIFE_H

#include "terminal.h"

/* Plays it, on a card before INIT. At the end the terminal's secrets are wiped. */
void life(void);

/* What it asks of the host besides transmit. The card loses its power and gets it back; 0: it could not be read back. */
int power_cut(void);
/* The terminal goes and the host stays: the card in memory is reset. */
int terminal_goes(void);
/* What the host showed for the last command: how many bytes of LOAD's data are before the faulty field; TW_NO_FAULT: nothing. */
size_t fault_shown(void);

/* A check: counted, and written out. */
void check(const char *what, int holds);
unsigned checks_made(void);
unsigned checks_failed(void);

#endif
