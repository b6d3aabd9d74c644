/* Recovery phrases (BIP 39): GENERATE MNEMONIC from entropy to the numbers of words, and ENTROPY back. Lengths are in bytes. */
#ifndef LIFE_PHRASES_H
#define LIFE_PHRASES_H

#include "treadlewisp.h"

/* ENTROPY by itself: BIP 39's tests, each refusal, and their order. */
void word_numbers(void);

/* GENERATE MNEMONIC over a channel, with ENTROPY of each answer: card and terminal are the two ends. No PIN is needed, and of the card
   nothing changes but the IV. */
void phrases(tw_card *card, tw_session *terminal);

#endif
