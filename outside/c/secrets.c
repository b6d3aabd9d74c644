/* What calls of include/treadlewisp.h leave on the stack. Each call of a card's life, with all operations and all commands, is made twice
   from the same card and session, on a painted stack (secrets_stack.h), which is then searched for pieces of PINs, PUKs, keys and entropy.
   After bare calls there are many, so the search does find; after tw_wipe_stack there is none, and the bytes that it overwrites are zero, down
   to the lowest that was used. Then tw_wipe. Exit status 0: so it was. With the word rows, a line for each call. Lengths are in bytes.
   It is built without sanitizers: they keep locals in memory of their own and put marks beside them, so the stack would not be that of a
   program in use. */
#include "life_calls.h"
#include "life_hash.h"
#include "secrets_stack.h"

#include <stdio.h>
#include <string.h>

enum {
    NEEDLES_MAX = 32,
    LC_BYTES = 1,
    FILL = 0xA5
};

/* A secret that is searched for. */
typedef struct needle {
    const char *name;
    text bytes;
    size_t found; /* pieces of it after all bare calls */
} needle;

static needle needles[NEEDLES_MAX];
static size_t needle_count = 0;

/* What the calls are given and what they give, in static memory: the stack that is searched has only what a call puts there. */
static tw_card card;
static tw_session terminal;
static uint8_t header[TW_HEADER_BYTES];
static text command, supply, data, response;
static uint8_t buffer[1024];
static unsigned refusal;
static size_t count;

static int rows_wanted = 0;
static size_t calls = 0, deepest_bytes = 0, pieces_bare = 0, pieces_wiped = 0;

/* The calls, as a host makes them. */
static void do_fresh(void)
{
    tw_fresh(&card, supply.bytes, data.bytes);
    refusal = TW_DONE;
    count = 0;
}

static void do_reset(void)
{
    refusal = tw_reset(&card);
    count = 0;
}

static void do_sound(void)
{
    refusal = tw_sound(&card) == 1 ? TW_DONE : TW_UNSOUND;
    count = 0;
}

static void do_ask(void)
{
    const tw_asked asked = tw_ask(&card, command.bytes, command.count, buffer, sizeof buffer);
    refusal = asked.refusal;
    count = asked.count;
}

static void do_answer(void)
{
    const tw_answered answered = tw_answer(&card, command.bytes, command.count, supply.bytes, supply.count, buffer, sizeof buffer);
    refusal = answered.refusal;
    count = answered.count;
}

static void do_seal(void)
{
    const tw_told told = tw_seal(&terminal, header, data.bytes, data.count, buffer, sizeof buffer);
    refusal = told.refusal;
    count = told.count;
}

static void do_unseal(void)
{
    const tw_told told = tw_unseal(&terminal, response.bytes, response.count, buffer, sizeof buffer);
    refusal = told.refusal;
    count = told.count;
}

static void do_walk(void)
{
    const tw_walked walked = tw_walk(data.bytes, data.count);
    refusal = walked.refusal;
    count = 0;
}

static void do_entropy(void)
{
    const tw_told told = tw_entropy(data.bytes, data.count, buffer, sizeof buffer);
    refusal = told.refusal;
    count = told.count;
}

static void do_write(void)
{
    const tw_told told = tw_write(&card, buffer, sizeof buffer);
    refusal = told.refusal;
    count = told.count;
}

static void do_read(void)
{
    refusal = tw_read(&card, data.bytes, data.count);
    count = 0;
}

static void do_tap(void)
{
    const tw_tapped tapped = tw_tap(data.bytes, data.count, header, sizeof header);
    refusal = tapped.refusal;
    count = 0;
}

static void (*call)(void);

static void bare(void)
{
    call();
}

static void wiped(void)
{
    call();
    tw_wipe_stack();
}

/* All pieces on the stack; a row shows how many of each secret. */
static size_t pieces_on_stack(int is_bare)
{
    size_t all = 0;
    for (size_t n = 0; n < needle_count; n++) {
        const size_t found = stack_pieces(needles[n].bytes.bytes, needles[n].bytes.count);
        if (found > 0 && rows_wanted) {
            printf(" %s %zu,", needles[n].name, found);
        }
        needles[n].found += is_bare ? found : 0;
        all += found;
    }
    return all;
}

/* The call on its stack, bare. */
static void look_bare(const char *name)
{
    on_stack(bare);
    const size_t bytes = stack_used_bytes();
    if (rows_wanted) {
        printf("%s: %zu bytes of stack; left bare:", name, bytes);
    }
    const size_t found = pieces_on_stack(1);
    expect(refusal == TW_DONE, "it is refused");
    expect(bytes <= TW_STACK_WIPE_BYTES, "it uses more of the stack than is wiped");
    calls++;
    pieces_bare += found;
    deepest_bytes = bytes > deepest_bytes ? bytes : deepest_bytes;
    if (rows_wanted) {
        printf(" %zu in all; wiped:", found);
    }
}

/* The call on its stack, and the wipe. */
static void look_wiped(void)
{
    on_stack(wiped);
    const size_t found = pieces_on_stack(0);
    expect(found == 0, "a secret is on the stack after tw_wipe_stack");
    expect(stack_lowest_zeros() >= TW_STACK_WIPE_BYTES, "the stack is not zero where it was wiped, or was used below that");
    pieces_wiped += found;
    if (rows_wanted) {
        printf(" %zu\n", found);
    }
}

/* The call, bare and wiped, from the same card and session: both times it gives the same. */
static void look(const char *name, void (*function)(void))
{
    static tw_card card_before, card_after;
    static tw_session terminal_before, terminal_after;
    static uint8_t buffer_after[sizeof buffer];
    about(name);
    call = function;
    card_before = card;
    terminal_before = terminal;
    memset(buffer, 0, sizeof buffer);
    look_bare(name);
    card_after = card;
    terminal_after = terminal;
    memcpy(buffer_after, buffer, sizeof buffer);
    card = card_before;
    terminal = terminal_before;
    memset(buffer, 0, sizeof buffer);
    look_wiped();
    expect(memcmp(&card, &card_after, sizeof card) == 0, "the second call gave another card");
    expect(memcmp(&terminal, &terminal_after, sizeof terminal) == 0, "the second call gave another session");
    expect(memcmp(buffer, buffer_after, sizeof buffer) == 0, "the second call wrote something else");
}

/* Bytes that are like no others: the seed and a small generator say which. */
static text secret_bytes(unsigned seed, size_t bytes)
{
    text t = filled(0, bytes);
    uint32_t state = 2654435761u * (seed + 1u);
    for (size_t at = 0; at < bytes; at++) {
        state = state * 1664525u + 1013904223u;
        t.bytes[at] = (uint8_t)(state >> 24);
    }
    return t;
}

/* From now on a needle. */
static text watched(const char *name, text secret)
{
    needles[needle_count].name = name;
    needles[needle_count].bytes = secret;
    needles[needle_count].found = 0;
    needle_count++;
    return secret;
}

static text key(const char *name, unsigned seed)
{
    return watched(name, secret_bytes(seed, TW_KEY_BYTES));
}

/* A key as SHA-256 reads it: words of 4 bytes, which have their low byte first in memory. */
static text in_words(text secret)
{
    text swapped = secret;
    for (size_t at = 0; at < secret.count; at++) {
        swapped.bytes[at] = secret.bytes[at / 4 * 4 + 3 - at % 4];
    }
    return swapped;
}

static text point(void)
{
    return filled(0x04, TW_PUBLIC_KEY_BYTES);
}

/* ASK and ANSWER of the command that was set. */
static void asked_and_answered(const char *ask, const char *answer, text with_supply, unsigned word)
{
    supply = with_supply;
    look(ask, do_ask);
    look(answer, do_answer);
    response = text_of(buffer, count);
    if (word != 0) {
        expect(same(response, status(word)), "the answer");
    }
}

/* A command over the channel; its answer's plaintext ends with 9000. */
static void sealed(const char *const names[4], unsigned ins, unsigned p1, text plaintext, text with_supply)
{
    const uint8_t bytes[TW_HEADER_BYTES] = {TW_CLASS_CARD, (uint8_t)ins, (uint8_t)p1, 0x00};
    memcpy(header, bytes, sizeof header);
    data = plaintext;
    look(names[0], do_seal);
    command = text_of(buffer, count);
    asked_and_answered(names[1], names[2], with_supply, 0);
    look(names[3], do_unseal);
    expect(count >= TW_STATUS_BYTES && same(text_of(buffer + count - TW_STATUS_BYTES, TW_STATUS_BYTES), status(TW_SW_SUCCESS)), "9000");
}

/* The names of a command's four calls. */
#define NAMES(command_name) \
    (const char *const[4]) \
    { \
        "SEAL of " command_name, "ASK of " command_name, "ANSWER to " command_name, "UNSEAL of " command_name \
    }

/* INIT's data: its ciphertext is that of SEAL with the same AES key and IV. */
static text init_data(text init_key, text content)
{
    tw_session sealing;
    text sealed_content;
    memset(&sealing, 0x81, sizeof sealing);
    memcpy(sealing.enc_key, init_key.bytes, sizeof sealing.enc_key);
    expect(call_seal(&sealing, TW_INS_INIT, 0, 0, content, TW_SEAL_ROOM_BYTES, &sealed_content) == TW_DONE, "SEAL is refused");
    const text ciphertext = text_of(sealed_content.bytes + TW_HEADER_BYTES + LC_BYTES + TW_MAC_BYTES, 64);
    return joined(joined(byte(TW_PUBLIC_KEY_BYTES), point()), joined(filled(0x81, TW_IV_BYTES), ciphertext));
}

/* INIT, PAIR and OPEN, which are not sealed. */
static void plain_commands(text pin, text puk)
{
    const text init_key = key("INIT key", 1), pairing_secret = key("pairing secret", 2);
    const text challenge = filled(0x93, TW_KEY_BYTES), salt = filled(0x92, TW_KEY_BYTES), iv = filled(0x63, TW_IV_BYTES);
    const text cryptogram = watched("expected cryptogram", hashed_with(pairing_secret, challenge));
    const text content = joined(joined(pin, puk), pairing_secret);
    watched("pairing key", hashed_with(pairing_secret, salt));
    watched("pairing secret, in words", in_words(pairing_secret));
    supply = filled(0x11, TW_UID_BYTES);
    data = point();
    look("FRESH", do_fresh);
    command = plain_command(TW_CLASS_CARD, TW_INS_INIT, 0, init_data(init_key, content));
    asked_and_answered("ASK of INIT", "ANSWER to INIT", joined(byte(1), init_key), TW_SW_SUCCESS);
    command = plain_command(TW_CLASS_CARD, TW_INS_PAIR, TW_P1_PAIR_FIRST, filled(0x0F, TW_KEY_BYTES));
    asked_and_answered("ASK of PAIR first", "ANSWER to PAIR first", challenge, 0);
    command = plain_command(TW_CLASS_CARD, TW_INS_PAIR, TW_P1_PAIR_FINAL, cryptogram);
    asked_and_answered("ASK of PAIR final", "ANSWER to PAIR final", salt, 0);
    expect(card.slots[0].filled == 1 && memcmp(card.slots[0].key, hashed_with(pairing_secret, salt).bytes, TW_KEY_BYTES) == 0, "paired");
    const text enc_key = key("encryption key", 5), mac_key = key("MAC key", 6);
    command = plain_command(TW_CLASS_CARD, TW_INS_OPEN, 0, point());
    const text keys = joined(joined(byte(1), enc_key), joined(mac_key, filled(0x94, TW_KEY_BYTES)));
    asked_and_answered("ASK of OPEN", "ANSWER to OPEN", joined(keys, iv), 0);
    memcpy(terminal.enc_key, enc_key.bytes, sizeof terminal.enc_key);
    memcpy(terminal.mac_key, mac_key.bytes, sizeof terminal.mac_key);
    memcpy(terminal.iv, iv.bytes, sizeof terminal.iv);
}

/* A wrong VERIFY, which is not looked at. */
static void wrong_pin(void)
{
    text sealed_command, wrote;
    expect(call_seal(&terminal, TW_INS_VERIFY, 0, 0, words("000000"), TW_SEAL_ROOM_BYTES, &sealed_command) == TW_DONE, "SEAL is refused");
    expect(call_answer(&card, sealed_command, none(), TW_ANSWER_ROOM_BYTES, &wrote) == TW_DONE, "ANSWER is refused");
    expect(call_unseal(&terminal, wrote, TW_UNSEAL_ROOM_BYTES, &wrote) == TW_DONE, "UNSEAL is refused");
}

static void sealed_commands(text pin, text puk)
{
    const text new_pin = watched("new PIN", words("314159")), new_puk = watched("new PUK", words("271828182845"));
    const text loaded_key = key("loaded key", 7), chain_code = key("chain code", 8), exported_key = key("exported key", 9);
    const text key_head = text_of((const uint8_t[]){0xA1, 68, 0x81, TW_KEY_BYTES}, 4);
    const text chain_head = text_of((const uint8_t[]){0x82, TW_KEY_BYTES}, 2);
    const text node = text_of((const uint8_t[]){0x80, 0, 0, 0x2B, 0x80, 0, 0, 0x3C, 0x80, 0, 0x06, 0x2D}, 12);
    const text signature = joined(joined(point(), filled(0x12, TW_KEY_BYTES)), filled(0x13, TW_KEY_BYTES));
    sealed(NAMES("MUTUAL"), TW_INS_MUTUAL, 0, filled(0x0E, TW_KEY_BYTES), filled(0x95, TW_KEY_BYTES));
    sealed(NAMES("VERIFY"), TW_INS_VERIFY, 0, pin, none());
    sealed(NAMES("GET STATUS"), TW_INS_GET_STATUS, TW_P1_STATUS_TRIES, none(), none());
    sealed(NAMES("CHANGE of the PIN"), TW_INS_CHANGE, TW_P1_CHANGE_PIN, new_pin, none());
    wrong_pin();
    wrong_pin();
    wrong_pin();
    sealed(NAMES("UNBLOCK"), TW_INS_UNBLOCK, 0, joined(puk, pin), none());
    sealed(NAMES("CHANGE of the PUK"), TW_INS_CHANGE, TW_P1_CHANGE_PUK, new_puk, none());
    sealed(NAMES("CHANGE of the secret"), TW_INS_CHANGE, TW_P1_CHANGE_SECRET, key("new secret", 10), none());
    sealed(NAMES("LOAD"), TW_INS_LOAD, TW_P1_LOAD_EXTENDED, joined(joined(key_head, loaded_key), joined(chain_head, chain_code)),
           joined(byte(1), point()));
    look("WALK of LOAD's data", do_walk);
    sealed(NAMES("DERIVE"), TW_INS_DERIVE, 0, node, byte(1));
    sealed(NAMES("EXPORT"), TW_INS_EXPORT, TW_P1_EXPORT_CURRENT, none(), joined(joined(byte(1), point()), exported_key));
    sealed(NAMES("SIGN"), TW_INS_SIGN, 0, filled(0x5F, 32), signature);
    sealed(NAMES("SET PIN-LESS PATH"), TW_INS_SET_PINLESS_PATH, 0, node, none());
    sealed(NAMES("SET NDEF"), TW_INS_SET_NDEF, 0, text_of((const uint8_t[]){0x00, 0x03, 0xD0, 0x00, 0x00}, 5), none());
}

/* A recovery phrase of 24 words, from its entropy to the words, and back. Both are secrets. */
static void recovery_phrase(void)
{
    const text entropy = key("entropy", 11);
    watched("entropy, in words", in_words(entropy));
    sealed(NAMES("GENERATE MNEMONIC"), TW_INS_GENERATE_MNEMONIC, TW_P1_MNEMONIC_24_WORDS, none(), entropy);
    expect(count == TW_WORDS_MAX_BYTES + TW_STATUS_BYTES, "24 words");
    data = watched("word numbers", text_of(buffer, TW_WORDS_MAX_BYTES));
    look("ENTROPY", do_entropy);
    expect(same(text_of(buffer, count), entropy), "the entropy");
}

static void stored_record(void)
{
    look("soundness", do_sound);
    look("WRITE", do_write);
    data = text_of(buffer, count);
    look("READ", do_read);
    look("the tap read", do_tap);
    look("RESET", do_reset);
}

/* What takes key, pairing and channel away. */
static void last_commands(void)
{
    sealed(NAMES("REMOVE"), TW_INS_REMOVE, 0, none(), none());
    sealed(NAMES("UNPAIR"), TW_INS_UNPAIR, 0, none(), none());
    command = plain_command(TW_CLASS_SELECT, TW_INS_SELECT, TW_P1_SELECT, words("StatusWalletApp"));
    asked_and_answered("ASK of SELECT", "ANSWER to SELECT", none(), 0);
}

/* tw_wipe: every byte of what it is given is zero, and the next one is as it was. */
static void wiped_memory(void)
{
    about("tw_wipe");
    const tw_card zeros = {0};
    const tw_session no_session = {{0}, {0}, {0}};
    tw_wipe(&card, sizeof card);
    tw_wipe(&terminal, sizeof terminal);
    expect(memcmp(&card, &zeros, sizeof card) == 0, "a card is not zero");
    expect(memcmp(&terminal, &no_session, sizeof terminal) == 0, "a session is not zero");
    memset(buffer, FILL, sizeof buffer);
    tw_wipe(buffer, sizeof buffer - 1);
    for (size_t at = 0; at < sizeof buffer - 1; at++) {
        expect(buffer[at] == 0, "a buffer is not zero");
    }
    tw_wipe(buffer + sizeof buffer - 1, 0);
    expect(buffer[sizeof buffer - 1] == FILL, "the byte after it was changed");
}

/* The search does find: bare calls have left this secret somewhere. */
static void found_bare(const char *name)
{
    size_t found = 0;
    for (size_t n = 0; n < needle_count; n++) {
        found += strcmp(needles[n].name, name) == 0 ? needles[n].found : 0;
    }
    about("bare calls");
    expect(found > 0, name);
}

int main(int arguments, char **argument)
{
    rows_wanted = arguments == 2 && strcmp(argument[1], "rows") == 0;
    const text pin = watched("PIN", words("024680")), puk = watched("PUK", words("918273645546"));
    plain_commands(pin, puk);
    sealed_commands(pin, puk);
    recovery_phrase();
    const tw_card in_channel = card;
    stored_record();
    card = in_channel;
    last_commands();
    wiped_memory();
    found_bare("PIN");
    found_bare("PUK");
    found_bare("pairing secret");
    found_bare("encryption key");
    found_bare("MAC key");
    found_bare("entropy");
    printf("secrets: %zu calls use at most %zu bytes of stack, %d are wiped; pieces of secrets: %zu bare, %zu wiped; %u checks, %u failed\n",
           calls, deepest_bytes, TW_STACK_WIPE_BYTES, pieces_bare, pieces_wiped, checks_made(), checks_failed());
    return checks_failed() == 0 ? 0 : 1;
}
