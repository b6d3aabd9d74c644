/* WALK, and the fault offset: where it refuses, and where LOAD's data is at fault. Lengths and offsets are in bytes. */
#ifndef LIFE_FAULTS_H
#define LIFE_FAULTS_H

#include "treadlewisp.h"

/* WALK by itself: its counts of fields, its refusals and their offsets. */
void templates(void);

/* LOAD with data at fault, over a channel in which the PIN is verified: card and terminal are the two ends. The card has no other key
   afterwards. */
void load_faults(tw_card *card, tw_session *terminal);

#endif
