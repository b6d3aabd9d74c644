/* A host that runs: one card's whole life, from its making to signatures, with real curve arithmetic, hashes and random numbers.

   Three parties are at work: the terminal, which sends commands (terminal.c has each, life.c their order); the host, this file, which holds
   the card's bytes; and the engine, the library treadlewisp, which says what the card answers. Here the wire between terminal and host is
   the function transmit; in an appliance it is a reader. The engine does no curve arithmetic and makes no random numbers: it asks the host
   for their results, the supply. supplies.c makes it, over keys.c (Keycard's key derivations and BIP 32), curve.c (libsecp256k1) and hash.c
   (libcrypto). The hashes of PAIR, of LOAD and of a recovery phrase the engine makes itself. store.c keeps the card on the disk.

   Usage: host FOLDER. The folder is there and has no card yet; it has one afterwards. Exit status: 0 where every check held, 1 where one
   did not, 2 for a wrong use. PIN, PUK and seed are for trying out. Lengths are in bytes. */
#include "curve.h"
#include "hash.h"
#include "life.h"
#include "store.h"
#include "supplies.h"

#include <stdio.h>
#include <string.h>

enum {
    /* The stored file: the card's private key, the wallet's key, the card's record. One file, so that a record and its key are stored
       together, or neither is. */
    WALLET_AT = TW_KEY_BYTES,
    RECORD_AT = WALLET_AT + sizeof(extended_key),
    FILE_MAX_BYTES = RECORD_AT + TW_WRITE_ROOM_BYTES
};

static struct host device;
static size_t shown_fault = TW_NO_FAULT;

/* WRITE, and the file durably. This sample stores in the clear: a real host encrypts the file, and sees that no older one is put back. */
static int host_store(const struct host *host)
{
    uint8_t file[FILE_MAX_BYTES];
    memcpy(file, host->card_key, sizeof host->card_key);
    memcpy(file + WALLET_AT, &host->wallet, sizeof host->wallet);
    const tw_told record = tw_write(&host->card, file + RECORD_AT, TW_WRITE_ROOM_BYTES);
    const int stored = record.refusal == TW_DONE && store_write(file, RECORD_AT + record.count);
    tw_wipe(file, sizeof file);
    return stored;
}

/* A new card: a UID, and a key pair for this card's channels and nothing else. */
static int host_make(struct host *host)
{
    uint8_t uid[TW_UID_BYTES], public_key[TW_PUBLIC_KEY_BYTES];
    if (!random_bytes(uid, sizeof uid) || !keys_pair(host->card_key, public_key)) {
        return 0;
    }
    tw_fresh(&host->card, uid, public_key);
    return host_store(host);
}

/* Power comes: all is read back from the disk. The card is as after RESET: no channel, PIN not verified. */
static int host_power_on(struct host *host)
{
    uint8_t file[FILE_MAX_BYTES];
    const size_t file_bytes = store_read(file, sizeof file);
    int done = file_bytes > RECORD_AT;
    if (done) {
        memcpy(host->card_key, file, sizeof host->card_key);
        memcpy(&host->wallet, file + WALLET_AT, sizeof host->wallet);
        done = tw_read(&host->card, file + RECORD_AT, file_bytes - RECORD_AT) == TW_DONE;
    }
    tw_wipe(file, sizeof file);
    return done;
}

/* Power goes: what was in memory is lost. */
static void host_power_off(struct host *host)
{
    tw_wipe(host, sizeof *host);
}

/* For whoever stands at the host: where the data of a LOAD is at fault. The number alone is shown. The byte there is a tag if all before it is
   right, and may be a byte of the key if not. */
static void host_show(size_t fault_offset)
{
    shown_fault = fault_offset;
    if (fault_offset != TW_NO_FAULT) {
        printf("  host: LOAD's data is at fault: field at byte %zu\n", fault_offset);
    }
}

/* One command, from its arrival to its answer: ASK, the supply, ANSWER, store, and only then the answer. Stored later, a wrong PIN would be
   known before its try is lost, and a power cut would bring the try back. Gives the answer's length; 0: there is none, and the host is
   again what is stored, as if the power had failed. */
static size_t host_call(struct host *host, const uint8_t *command, size_t command_bytes, uint8_t answer[TW_ANSWER_ROOM_BYTES])
{
    uint8_t data[TW_ASK_ROOM_BYTES] = {0}, supply[TW_SUPPLY_MAX_BYTES] = {0};
    size_t supply_bytes = 0, answer_bytes = 0;
    const tw_asked asked = tw_ask(&host->card, command, command_bytes, data, sizeof data);
    if (asked.kind != TW_SUPPLY_NONE) {
        supply_bytes = supply_make(host, asked.kind, command, data, asked.count, supply);
    }
    if (asked.refusal == TW_DONE && (asked.kind == TW_SUPPLY_NONE || supply_bytes > 0)) {
        const tw_answered answered = tw_answer(&host->card, command, command_bytes, supply, supply_bytes, answer, TW_ANSWER_ROOM_BYTES);
        if (answered.refusal == TW_DONE && host->card.key_kind == TW_KEY_NONE) {
            tw_wipe(&host->wallet, sizeof host->wallet); /* REMOVE: the card has no key any more */
        }
        if (answered.refusal == TW_DONE && host_store(host)) {
            answer_bytes = answered.count;
        }
        host_show(answered.fault_offset);
    }
    tw_wipe(data, sizeof data);
    tw_wipe(supply, sizeof supply);
    if (answer_bytes == 0 && !host_power_on(host)) {
        host_power_off(host);
    }
    return answer_bytes;
}

size_t transmit(const uint8_t *command, size_t command_bytes, uint8_t answer[TW_ANSWER_ROOM_BYTES])
{
    const size_t answer_bytes = host_call(&device, command, command_bytes, answer);
    tw_wipe_stack(); /* what the calls above left below this frame */
    return answer_bytes;
}

int power_cut(void)
{
    host_power_off(&device);
    return host_power_on(&device);
}

int terminal_goes(void)
{
    return tw_reset(&device.card) == TW_DONE;
}

size_t fault_shown(void)
{
    return shown_fault;
}

int main(int argc, char **argv)
{
    static const extended_key no_key;
    uint8_t blinding[CURVE_KEY_BYTES];
    if (argc != 2 || !store_open(argv[1]) || store_has_file()) {
        fprintf(stderr, "usage: host FOLDER, which is there, has no card yet and is used by no other host\n");
        return 2;
    }
    if (!random_bytes(blinding, sizeof blinding) || !curve_begin(blinding) || !host_make(&device)) {
        fprintf(stderr, "host: there are no random numbers, or the new card cannot be stored\n");
        return 1;
    }
    life();
    check("the wallet is removed: the stored file has no key", power_cut() && memcmp(&device.wallet, &no_key, sizeof no_key) == 0);

    curve_end();
    host_power_off(&device);
    tw_wipe(blinding, sizeof blinding);
    tw_wipe_stack();
    printf("host: %u checks, %u failed\n", checks_made(), checks_failed());
    return checks_failed() == 0 ? 0 : 1;
}
