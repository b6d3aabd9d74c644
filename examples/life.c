#include "life.h"

#include "curve.h"
#include "hash.h"
#include "published.h"

#include <stdio.h>
#include <string.h>

static const char PIN[] = "024680", WRONG_PIN[] = "024681", PUK[] = "918273645546";
/* m/43'/60'/1581'/0', a chat key: of these paths EXPORT gives the private key too. */
static const uint8_t CHAT_PATH[] = {0x80, 0x00, 0x00, 0x2B, 0x80, 0x00, 0x00, 0x3C, 0x80, 0x00, 0x06, 0x2D, 0x80, 0x00, 0x00, 0x00};
enum {
    EXPORTED_KEY_AT = 2 + 2, /* the public key in EXPORT's response, after A1 length 80 41; then the private key, after 81 20 */
    EXPORTED_PRIVATE_AT = EXPORTED_KEY_AT + TW_PUBLIC_KEY_BYTES + 2,
    EXPORTED_BOTH_BYTES = EXPORTED_PRIVATE_AT + TW_KEY_BYTES,
    STATUS_BYTES = 11, /* GET STATUS's response, and where the PIN's tries are in it */
    STATUS_TRIES_AT = 4
};

static struct terminal phone;
static uint8_t pairing_secret[TW_KEY_BYTES];
static unsigned checks, failed;

unsigned checks_made(void)
{
    return checks;
}

unsigned checks_failed(void)
{
    return failed;
}

void check(const char *what, int holds)
{
    checks++;
    failed += !holds;
    printf("%-60s %s\n", what, holds ? "yes" : "NO");
}

static void answers(const char *what, unsigned status_word, unsigned wanted)
{
    checks++;
    failed += status_word != wanted;
    printf("%-60s %04X%s\n", what, status_word, status_word == wanted ? "" : ": WRONG");
}

/* A command over the channel, with P2 00. */
static unsigned sealed(uint8_t ins, uint8_t p1, const void *data, size_t data_bytes)
{
    return terminal_sealed(&phone, ins, p1, 0x00, data, data_bytes);
}

static int tries_left(unsigned tries)
{
    return sealed(TW_INS_GET_STATUS, TW_P1_STATUS_TRIES, "", 0) == TW_SW_SUCCESS && phone.data_bytes == STATUS_BYTES &&
           phone.data[STATUS_TRIES_AT] == tries;
}

/* Whether the last answer, one of EXPORT, has this public key. */
static int exported(const uint8_t public_key[TW_PUBLIC_KEY_BYTES])
{
    return phone.data_bytes >= EXPORTED_KEY_AT + TW_PUBLIC_KEY_BYTES &&
           same_bytes(phone.data + EXPORTED_KEY_AT, public_key, TW_PUBLIC_KEY_BYTES);
}

/* From a card that nobody owns to one that has a PIN and is paired with this terminal. */
static void first_contact(void)
{
    static const uint8_t off_the_curve[TW_PUBLIC_KEY_BYTES] = {0x04, 0x01};
    check("a pairing secret, random", random_bytes(pairing_secret, sizeof pairing_secret));
    answers("SELECT, before INIT", terminal_select(&phone), TW_SW_SUCCESS);
    answers("INIT: PIN, PUK and pairing secret", terminal_init(&phone, PIN, PUK, pairing_secret), TW_SW_SUCCESS);
    answers("SELECT, after INIT", terminal_select(&phone), TW_SW_SUCCESS);
    answers("PAIR, both steps", terminal_pair(&phone, pairing_secret), TW_SW_SUCCESS);
    answers("OPEN with a point off the curve",
            terminal_plain(&phone, TW_CLASS_CARD, TW_INS_OPEN, phone.slot, off_the_curve, sizeof off_the_curve), TW_SW_WRONG_DATA);
    answers("OPEN and MUTUAL: the channel is there", terminal_open(&phone), TW_SW_SUCCESS);
}

/* What a screen shows: the words of the last answer, by their numbers. A real terminal has BIP 39's list and shows the words. */
static void show_words(void)
{
    const size_t words = phone.data_bytes / TW_WORD_NUMBER_BYTES;
    printf("  %zu words:", words);
    for (size_t at = 0; at < words; at++) {
        printf(" %u", terminal_word(&phone, at));
    }
    printf("\n");
}

/* A new recovery phrase: its owner copies the words from the screen, and gives them back one day. It takes the channel, and no PIN. This
   phrase is of no wallet. */
static void recovery_phrase(void)
{
    uint8_t words[TW_WORDS_MIN_BYTES] = {0}, entropy[TW_ENTROPY_ROOM_BYTES] = {0}, hash[SHA256_BYTES] = {0};
    answers("GENERATE MNEMONIC, 12 words", sealed(TW_INS_GENERATE_MNEMONIC, TW_P1_MNEMONIC_12_WORDS, "", 0), TW_SW_SUCCESS);
    check("12 numbers of 2 bytes", phone.data_bytes == sizeof words);
    show_words();
    memcpy(words, phone.data, sizeof words);
    const tw_told told = tw_entropy(words, sizeof words, entropy, sizeof entropy);
    check("ENTROPY of these words: 16 bytes", told.refusal == TW_DONE && told.count == TW_ENTROPY_MIN_BYTES);
    /* BIP 39: the last 4 of the numbers' 132 bits are the first of the entropy's SHA-256. */
    check("the checksum is that of our own hash",
          hash_sha256(entropy, told.count, hash) && (words[sizeof words - 1] & 0x0F) == hash[0] >> 4);
    words[sizeof words - 1] ^= 0x01;
    check("ENTROPY finds that a word was copied wrongly",
          tw_entropy(words, sizeof words, entropy, sizeof entropy).refusal == TW_WRONG_CHECKSUM);
    words[sizeof words - 1] ^= 0x01;
    answers("GENERATE MNEMONIC, 24 words", sealed(TW_INS_GENERATE_MNEMONIC, TW_P1_MNEMONIC_24_WORDS, "", 0), TW_SW_SUCCESS);
    check("they are others", phone.data_bytes == TW_WORDS_MAX_BYTES && !same_bytes(phone.data, words, sizeof words));
    answers("GENERATE MNEMONIC with P1 09", sealed(TW_INS_GENERATE_MNEMONIC, 9, "", 0), TW_SW_WRONG_PARAMETERS);
    tw_wipe(words, sizeof words);
    tw_wipe(entropy, sizeof entropy);
    tw_wipe(hash, sizeof hash);
    tw_wipe(phone.data, sizeof phone.data);
    tw_wipe_stack(); /* what ENTROPY left there */
}

/* A wrong PIN loses a try, and a power cut does not bring it back. */
static void wrong_pin(void)
{
    answers("VERIFY, a wrong PIN", sealed(TW_INS_VERIFY, 0x00, WRONG_PIN, TW_PIN_BYTES), TW_SW_TRIES_LEFT + 2);
    check("a power cut; the card is read back", power_cut());
    answers("VERIFY over the old channel: no sealed answer", sealed(TW_INS_VERIFY, 0x00, PIN, TW_PIN_BYTES), 0);
    answers("OPEN and MUTUAL", terminal_open(&phone), TW_SW_SUCCESS);
    check("GET STATUS: 2 tries left", tries_left(TW_PIN_TRIES - 1));
    answers("VERIFY, the right PIN", sealed(TW_INS_VERIFY, 0x00, PIN, TW_PIN_BYTES), TW_SW_SUCCESS);
    check("GET STATUS: 3 tries again", tries_left(TW_PIN_TRIES));
}

/* A wallet comes to the card: as keys, in each form that LOAD takes, and at last as a seed. All are one key, and so have one key UID. */
static void wallet(void)
{
    uint8_t public_key[TW_PUBLIC_KEY_BYTES] = {0}, key_uid[TW_KEY_BYTES] = {0};
    extended_key master = {{0}, {0}};
    check("the wallet's master key", keys_master(PUBLISHED_SEED, &master) && curve_point(master.private_key, public_key) &&
                                         keys_uid(public_key, key_uid));
    for (uint8_t form = 0; form < 4; form++) {
        const uint8_t p1 = form < 2 ? TW_P1_LOAD_PLAIN : TW_P1_LOAD_EXTENDED;
        answers(form < 2 ? "LOAD of a plain key" : "LOAD of an extended key",
                terminal_load(&phone, p1, &master, form % 2 == 0 ? NULL : public_key), TW_SW_SUCCESS);
        check("it answers the key's UID", phone.data_bytes == TW_KEY_BYTES && same_bytes(phone.data, key_uid, TW_KEY_BYTES));
    }
    answers("LOAD with another key's public key", terminal_load(&phone, TW_P1_LOAD_PLAIN, &master, PUBLISHED_PUBLIC_KEY), TW_SW_WRONG_DATA);
    answers("LOAD of a seed", sealed(TW_INS_LOAD, TW_P1_LOAD_SEED, PUBLISHED_SEED, sizeof PUBLISHED_SEED), TW_SW_SUCCESS);
    check("it answers the key's UID", phone.data_bytes == TW_KEY_BYTES && same_bytes(phone.data, key_uid, TW_KEY_BYTES));
    answers("DERIVE of the path", sealed(TW_INS_DERIVE, 0x00, PUBLISHED_PATH, sizeof PUBLISHED_PATH), TW_SW_SUCCESS);
    tw_wipe(&master, sizeof master);
}

/* Keys with a wrong length in their template. The terminal gets 6A80; the host shows where the fault is. */
static void wallet_at_fault(void)
{
    /* A1 holds the private key alone, 81; PUBLISHED_SEED stands for it. */
    uint8_t data[4 + TW_KEY_BYTES] = {0xA1, 2 + TW_KEY_BYTES, 0x81, TW_KEY_BYTES};
    memcpy(data + 4, PUBLISHED_SEED, TW_KEY_BYTES);
    data[1]++;
    answers("LOAD, the template a byte too long", sealed(TW_INS_LOAD, TW_P1_LOAD_PLAIN, data, sizeof data), TW_SW_WRONG_DATA);
    check("the host shows byte 0, the template's tag", fault_shown() == 0);
    data[1]--;
    data[3]++;
    answers("LOAD, the key a byte too long", sealed(TW_INS_LOAD, TW_P1_LOAD_PLAIN, data, sizeof data), TW_SW_WRONG_DATA);
    check("the host shows byte 2, the key's tag", fault_shown() == 2);
    data[3]--;
    answers("LOAD of a plain key as an extended one", sealed(TW_INS_LOAD, TW_P1_LOAD_EXTENDED, data, sizeof data), TW_SW_WRONG_DATA);
    check("its fields are whole: the host shows no place", fault_shown() == TW_NO_FAULT);
    answers("LOAD of half a seed", sealed(TW_INS_LOAD, TW_P1_LOAD_SEED, PUBLISHED_SEED, SEED_BYTES / 2), TW_SW_WRONG_DATA);
    check("a seed has no fields: the host shows no place", fault_shown() == TW_NO_FAULT);
    tw_wipe(data, sizeof data);
}

/* SIGN of a payment's hash: the signature is that of the path's key. */
static void payment(const char *text)
{
    uint8_t hash[SHA256_BYTES] = {0};
    const uint8_t *public_key = hash, *der = hash;
    size_t der_bytes = 0;
    check("the payment's hash", hash_sha256((const uint8_t *)text, strlen(text), hash));
    answers("SIGN", sealed(TW_INS_SIGN, 0x00, hash, sizeof hash), TW_SW_SUCCESS);
    const int is_signature = terminal_signature(&phone, &public_key, &der, &der_bytes);
    check("its public key is the published one of the path",
          is_signature && same_bytes(public_key, PUBLISHED_PUBLIC_KEY, TW_PUBLIC_KEY_BYTES));
    check("the signature verifies, with the lower s", is_signature && curve_verify(public_key, hash, der, der_bytes));
    hash[0] ^= 0x01;
    check("it is no signature of another payment", is_signature && !curve_verify(public_key, hash, der, der_bytes));
}

/* What EXPORT gives: public keys, and the private keys of chats. */
static void exports(void)
{
    uint8_t public_key[TW_PUBLIC_KEY_BYTES];
    answers("EXPORT of the current path, its public key",
            terminal_sealed(&phone, TW_INS_EXPORT, TW_P1_EXPORT_CURRENT, TW_P2_EXPORT_PUBLIC_ONLY, "", 0), TW_SW_SUCCESS);
    check("it is the key that signs", exported(PUBLISHED_PUBLIC_KEY));
    answers("EXPORT of the current path, its private key", sealed(TW_INS_EXPORT, TW_P1_EXPORT_CURRENT, "", 0), TW_SW_CONDITIONS_NOT_MET);
    answers("EXPORT of a chat key, its private key", sealed(TW_INS_EXPORT, TW_P1_EXPORT_DERIVE, CHAT_PATH, sizeof CHAT_PATH),
            TW_SW_SUCCESS);
    check("private and public key belong together", phone.data_bytes == EXPORTED_BOTH_BYTES &&
                                                        curve_point(phone.data + EXPORTED_PRIVATE_AT, public_key) && exported(public_key));
}

/* The terminal goes and comes again: wallet and path are there, and PIN and channel have to be given anew. Then the wallet goes. */
static void another_day(void)
{
    check("the terminal goes: RESET", terminal_goes());
    answers("VERIFY over the old channel: no sealed answer", sealed(TW_INS_VERIFY, 0x00, PIN, TW_PIN_BYTES), 0);
    check("the host is switched off and on: READ", power_cut());
    answers("SELECT", terminal_select(&phone), TW_SW_SUCCESS);
    answers("OPEN and MUTUAL, with the pairing of the first day", terminal_open(&phone), TW_SW_SUCCESS);
    answers("SIGN without the PIN", sealed(TW_INS_SIGN, 0x00, PUBLISHED_SEED, SHA256_BYTES), TW_SW_CONDITIONS_NOT_MET);
    answers("VERIFY", sealed(TW_INS_VERIFY, 0x00, PIN, TW_PIN_BYTES), TW_SW_SUCCESS);
    payment("ten to the baker");
    answers("REMOVE", sealed(TW_INS_REMOVE, 0x00, "", 0), TW_SW_SUCCESS);
    answers("SIGN without a key", sealed(TW_INS_SIGN, 0x00, PUBLISHED_SEED, SHA256_BYTES), TW_SW_CONDITIONS_NOT_MET);
}

void life(void)
{
    first_contact();
    recovery_phrase();
    wrong_pin();
    wallet_at_fault();
    wallet();
    payment("five to the grocer");
    exports();
    another_day();
    tw_wipe(pairing_secret, sizeof pairing_secret);
    tw_wipe(&phone, sizeof phone);
}
