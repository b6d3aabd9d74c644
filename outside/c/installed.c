/* What a user builds against the installed files, by what pkg-config says alone: the version, SELECT with the application id, and each
   argument that has its length beside it once as null and 0. Such a call has to give what it gives for a pointer to no bytes. Lengths are in
   bytes. tools/installed builds it with the archive and with the shared object, tools/library --target for other processors. */
#include <treadlewisp.h>

#include <stdio.h>
#include <string.h>

static unsigned checks = 0, failed = 0;
static uint8_t some[TW_WRITE_ROOM_BYTES], buffer[TW_WRITE_ROOM_BYTES], second[TW_WRITE_ROOM_BYTES];

static void check(int holds, const char *what)
{
    checks++;
    if (!holds) {
        failed++;
        printf("installed: %s\n", what);
    }
}

static int same_told(tw_told a, tw_told b)
{
    return a.refusal == b.refusal && a.count == b.count && memcmp(buffer, second, sizeof buffer) == 0;
}

static int same_answered(tw_answered a, tw_answered b)
{
    return a.refusal == b.refusal && a.count == b.count && a.fault_offset == b.fault_offset && memcmp(buffer, second, sizeof buffer) == 0;
}

static int same_tapped(tw_tapped a, tw_tapped b)
{
    return a.refusal == b.refusal && a.source == b.source && a.offset == b.offset && a.length == b.length;
}

/* SELECT of a new card: 80 41, its public key, 9000. */
static void selected(tw_card *card)
{
    static const uint8_t id[TW_APPLICATION_ID_BYTES] = TW_APPLICATION_ID;
    uint8_t select[TW_HEADER_BYTES + 1 + TW_APPLICATION_ID_BYTES] = {TW_CLASS_SELECT, TW_INS_SELECT, TW_P1_SELECT, 0x00, TW_APPLICATION_ID_BYTES};
    memcpy(select + TW_HEADER_BYTES + 1, id, sizeof id);
    check(memcmp(id, "StatusWalletApp", sizeof id) == 0, "the application id");
    const tw_answered answered = tw_answer(card, select, sizeof select, NULL, 0, buffer, sizeof buffer);
    check(answered.refusal == TW_DONE && answered.count == 2 + TW_PUBLIC_KEY_BYTES + TW_STATUS_BYTES, "SELECT's length");
    check(buffer[0] == 0x80 && buffer[1] == TW_PUBLIC_KEY_BYTES && memcmp(buffer + 2, card->public_key, TW_PUBLIC_KEY_BYTES) == 0, "SELECT");
    check(buffer[67] == 0x90 && buffer[68] == 0x00, "SELECT's status word");
}

/* ASK and ANSWER: no command, no supply, no room. */
static void card_calls(tw_card *card)
{
    tw_card other = *card;
    const tw_asked asked = tw_ask(card, NULL, 0, buffer, sizeof buffer), asked_so = tw_ask(card, some, 0, second, sizeof second);
    check(asked.refusal == asked_so.refusal && asked.kind == asked_so.kind && asked.count == asked_so.count, "ASK, no command");
    check(tw_ask(card, some, 4, NULL, 0).refusal == TW_ROOM, "ASK, no room");
    const tw_answered first = tw_answer(card, NULL, 0, some, 0, buffer, sizeof buffer);
    check(same_answered(first, tw_answer(&other, some, 0, some, 0, second, sizeof second)), "ANSWER, no command");
    check(first.refusal == TW_DONE && first.count == TW_STATUS_BYTES && buffer[0] == 0x67 && buffer[1] == 0x00, "ANSWER, no command: 6700");
    const tw_answered third = tw_answer(card, some, 4, NULL, 0, buffer, sizeof buffer);
    check(same_answered(third, tw_answer(&other, some, 4, some, 0, second, sizeof second)), "ANSWER, no supply");
    check(tw_answer(card, some, 4, some, 0, NULL, 0).refusal == TW_ROOM, "ANSWER, no room");
    check(memcmp(card, &other, sizeof other) == 0, "ANSWER's card");
}

/* SEAL, UNSEAL, WALK and ENTROPY. */
static void terminal_calls(void)
{
    tw_session session, other;
    memset(&session, 0x21, sizeof session);
    other = session;
    const tw_told sealed = tw_seal(&session, some, NULL, 0, buffer, sizeof buffer);
    check(sealed.refusal == TW_DONE && sealed.count == 37, "SEAL, no data: 37 bytes");
    check(same_told(sealed, tw_seal(&other, some, some, 0, second, sizeof second)), "SEAL, no data");
    check(memcmp(&session, &other, sizeof other) == 0, "SEAL's session");
    check(tw_seal(&session, some, some, 0, NULL, 0).refusal == TW_ROOM, "SEAL, no room");
    check(same_told(tw_unseal(&session, NULL, 0, buffer, sizeof buffer), tw_unseal(&other, some, 0, second, sizeof second)), "UNSEAL, no response");
    check(tw_unseal(&session, some, 0, NULL, 0).refusal == TW_ROOM, "UNSEAL, no room");
    const tw_walked walked = tw_walk(NULL, 0);
    check(walked.refusal == TW_DONE && walked.count == 0 && walked.fault_offset == 0, "WALK, no input");
    check(same_told(tw_entropy(NULL, 0, buffer, sizeof buffer), tw_entropy(some, 0, second, sizeof second)), "ENTROPY, no words");
    check(tw_entropy(some, 24, NULL, 0).refusal == TW_ROOM, "ENTROPY, no room");
    tw_wipe(NULL, 0);
}

/* WRITE, READ and the tap read. */
static void record_calls(tw_card *card)
{
    tw_card read, other;
    check(tw_write(card, NULL, 0).refusal == TW_ROOM, "WRITE, no room");
    const tw_told wrote = tw_write(card, buffer, sizeof buffer);
    check(wrote.refusal == TW_DONE && wrote.count == TW_RECORD_FRESH_BYTES, "WRITE");
    check(tw_read(&read, NULL, 0) == TW_NOT_RECORD && tw_read(&other, some, 0) == TW_NOT_RECORD, "READ, no record");
    check(memcmp(&read, &other, sizeof read) == 0, "READ's card");
    check(same_tapped(tw_tap(NULL, 0, some, 5), tw_tap(some, 0, some, 5)), "the tap read, no record");
    check(same_tapped(tw_tap(buffer, wrote.count, NULL, 0), tw_tap(buffer, wrote.count, some, 0)), "the tap read, no factory record");
    check(tw_tap(buffer, wrote.count, NULL, 0).source == TW_TAP_FACTORY, "the tap read's source");
}

int main(void)
{
    tw_card card;
    char version[32];
    snprintf(version, sizeof version, "%d.%d.%d", TW_VERSION_MAJOR, TW_VERSION_MINOR, TW_VERSION_PATCH);
    check(strcmp(version, TW_VERSION) == 0, "the version");
    memset(some, 0x11, sizeof some);
    memset(buffer, 0, sizeof buffer);
    memset(second, 0, sizeof second);
    tw_fresh(&card, some, some);
    selected(&card);
    memset(buffer, 0, sizeof buffer);
    card_calls(&card);
    memset(buffer, 0, sizeof buffer);
    memset(second, 0, sizeof second);
    terminal_calls();
    record_calls(&card);
    tw_wipe_stack();
    printf("installed %s: %u checks, %u failed\n", TW_VERSION, checks, failed);
    return failed == 0 ? 0 : 1;
}
