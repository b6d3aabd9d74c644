/* port CALLS SEED: so many calls of the library treadlewisp, in whole lives of cards from a seeded generator (port_life.c), and all that each
   gave on standard output (port_calls.c). tools/library --target runs it on two processors and compares what they write, byte by byte.
   On standard error it says how many calls there were. It fails where an operation was never done or never refused, or a command never
   succeeded: then the run would compare too little. Lengths are in bytes. */
#include "port_calls.h"
#include "port_life.h"

#include <stdio.h>
#include <stdlib.h>

static const char *const names[OPERATIONS] = {"FRESH", "soundness", "RESET", "ASK",   "ANSWER", "SEAL",
                                              "UNSEAL", "WALK",     "ENTROPY", "WRITE", "READ",  "the tap read"};
static const uint8_t instructions[] = {
    TW_INS_SELECT, TW_INS_INIT, TW_INS_OPEN, TW_INS_MUTUAL, TW_INS_PAIR, TW_INS_UNPAIR, TW_INS_GET_STATUS, TW_INS_VERIFY, TW_INS_CHANGE,
    TW_INS_UNBLOCK, TW_INS_LOAD, TW_INS_DERIVE, TW_INS_REMOVE, TW_INS_SET_PINLESS_PATH, TW_INS_SIGN, TW_INS_EXPORT, TW_INS_SET_NDEF,
    TW_INS_GENERATE_MNEMONIC,
};

/* Whether all that may happen did. */
static int all_met(void)
{
    int met = calls_with_null() > 0;
    for (int k = 0; k < OPERATIONS; k++) {
        if (calls_done((enum operation)k) == 0 || (k != FRESH && calls_refused((enum operation)k) == 0)) {
            fprintf(stderr, "port: never done or never refused: %s\n", names[k]);
            met = 0;
        }
    }
    for (size_t k = 0; k < sizeof instructions; k++) {
        if (successes(instructions[k]) == 0) {
            fprintf(stderr, "port: no success of the instruction %02X\n", instructions[k]);
            met = 0;
        }
    }
    return met;
}

int main(int count, char **words)
{
    if (count != 3) {
        fprintf(stderr, "usage: port CALLS SEED\n");
        return 2;
    }
    const size_t calls = strtoul(words[1], NULL, 10);
    size_t lives = 0, answers = 0;
    seed_with(strtoull(words[2], NULL, 10));
    for (; calls_made() < calls; lives++) {
        play_life(40 + below(400));
    }
    for (size_t k = 0; k < sizeof instructions; k++) {
        answers += successes(instructions[k]);
    }
    if (!all_met() || fflush(stdout) != 0) {
        return 1;
    }
    fprintf(stderr, "%zu calls in %zu lives, %zu ANSWERs of which %zu with 9000, %zu calls with null for no bytes\n", calls_made(), lives,
            calls_done(ANSWER) + calls_refused(ANSWER), answers, calls_with_null());
    return 0;
}
