#include "life_phrases.h"

#include "life_calls.h"
#include "life_hash.h"

#include <string.h>

enum {
    WORD_BITS = 11,
    WORDS_MAX = TW_WORDS_MAX_BYTES / TW_WORD_NUMBER_BYTES,
    ALL_BITS_MAX = WORDS_MAX * WORD_BITS
};

/* Entropy of this many bytes that is like no other. */
static text made_up(unsigned seed, size_t bytes)
{
    text t = filled(0, bytes);
    uint32_t state = 2654435761u * (seed + 1u);
    for (size_t at = 0; at < bytes; at++) {
        state = state * 1664525u + 1013904223u;
        t.bytes[at] = (uint8_t)(state >> 24);
    }
    return t;
}

/* The bytes' bits, one a byte, the high bit first. Gives how many they are. */
static size_t bits_of(text bytes, uint8_t *bits)
{
    for (size_t at = 0; at < 8 * bytes.count; at++) {
        bits[at] = (uint8_t)(bytes.bytes[at / 8] >> (7 - at % 8) & 1);
    }
    return 8 * bytes.count;
}

/* BIP 39: the entropy's bits and the first of its SHA-256, one for each 32, cut into numbers of 11 bits; each in 2 bytes. */
static text words_of(text entropy)
{
    uint8_t bits[ALL_BITS_MAX + 8 * 32] = {0};
    const size_t words = entropy.count * 8 / 32 * 3, entropy_bits = bits_of(entropy, bits);
    text numbers = filled(0, words * TW_WORD_NUMBER_BYTES);
    (void)bits_of(hashed(entropy), bits + entropy_bits);
    for (size_t word = 0; word < words; word++) {
        unsigned number = 0;
        for (size_t bit = 0; bit < WORD_BITS; bit++) {
            number = 2 * number + bits[word * WORD_BITS + bit];
        }
        numbers.bytes[word * TW_WORD_NUMBER_BYTES] = (uint8_t)(number >> 8);
        numbers.bytes[word * TW_WORD_NUMBER_BYTES + 1] = (uint8_t)(number & 0xFF);
    }
    return numbers;
}

static void reversed(text words, text entropy)
{
    text wrote;
    expect(call_entropy(words, TW_ENTROPY_ROOM_BYTES, &wrote) == TW_DONE, "ENTROPY is refused");
    expect(same(wrote, entropy), "the entropy");
    expect(call_entropy(words, TW_ENTROPY_ROOM_BYTES + 9, &wrote) == TW_DONE && same(wrote, entropy), "the entropy, with more room");
    expect(call_entropy(words, TW_ENTROPY_ROOM_BYTES - 1, &wrote) == TW_ROOM, "a byte of room too few");
}

static void refused(const char *what, text words, unsigned refusal)
{
    text wrote;
    expect(call_entropy(words, TW_ENTROPY_ROOM_BYTES, &wrote) == refusal, what);
    expect(call_entropy(words, 0, &wrote) == TW_ROOM, "2 before all others");
}

/* BIP 39's tests of 16, 24 and 32 bytes that are all the same: the last number of each; the others repeat. */
static void published_phrases(void)
{
    static const struct {
        uint8_t byte;
        unsigned first, last[3];
    } published[] = {
        {0x00, 0, {3, 39, 102}},           /* abandon .. about, agent, art */
        {0x7F, 1019, {2040, 2009, 1815}},  /* legal .. yellow, will, title */
        {0x80, 1028, {4, 60, 189}},        /* letter .. above, always, bless */
        {0xFF, 2047, {2037, 2001, 1967}}   /* zoo .. wrong, when, vote */
    };
    for (size_t at = 0; at < sizeof published / sizeof published[0]; at++) {
        for (size_t length = 0; length < 3; length++) {
            const text entropy = filled(published[at].byte, 16 + 8 * length), words = words_of(entropy);
            const uint8_t *const last = words.bytes + words.count - TW_WORD_NUMBER_BYTES;
            expect(words.bytes[0] * 256u + words.bytes[1] == published[at].first, "the first word, as it is worked out here");
            expect(last[0] * 256u + last[1] == published[at].last[length], "the last word, as it is worked out here");
            reversed(words, entropy);
        }
    }
}

void word_numbers(void)
{
    const text entropy = made_up(7, TW_ENTROPY_MIN_BYTES), words = words_of(entropy);
    text wrong = words;
    about("word numbers back to entropy");
    published_phrases();
    for (size_t bytes = 0; bytes <= 2 * TW_WORDS_MAX_BYTES; bytes++) {
        const int is_count = bytes >= TW_WORDS_MIN_BYTES && bytes <= TW_WORDS_MAX_BYTES && bytes % 6 == 0;
        refused("9 before 10: numbers over 2047", filled(0xFF, bytes), is_count ? TW_NUMBER_TOO_LARGE : TW_WRONG_COUNT);
    }
    for (size_t at = 0; at < words.count; at += TW_WORD_NUMBER_BYTES) {
        wrong = words;
        wrong.bytes[at] = (TW_WORD_NUMBER_MAX + 1) >> 8;
        wrong.bytes[at + 1] = 0;
        refused("10 before 11: the number 2048", wrong, TW_NUMBER_TOO_LARGE);
    }
    /* The last number of 12 ends with 4 bits of checksum. */
    for (unsigned other = 1; other < 16; other++) {
        wrong = words;
        wrong.bytes[words.count - 1] = (uint8_t)(wrong.bytes[words.count - 1] ^ other);
        refused("11: another checksum", wrong, TW_WRONG_CHECKSUM);
    }
    reversed(words, entropy);
}

/* The command, sealed: ASK names the kind and hands out no bytes. */
static text sealed_command(const tw_card *card, tw_session *terminal, unsigned p1, unsigned p2, text data, unsigned kind)
{
    text command, wrote;
    unsigned found_kind;
    expect(call_seal(terminal, TW_INS_GENERATE_MNEMONIC, p1, p2, data, TW_SEAL_ROOM_BYTES, &command) == TW_DONE, "SEAL is refused");
    expect(call_ask(card, command, TW_ASK_ROOM_BYTES, &found_kind, &wrote) == TW_DONE, "ASK is refused");
    expect(found_kind == kind && wrote.count == 0, "ASK's kind, and no data");
    return command;
}

/* ANSWER and UNSEAL: the plaintext is this one, and of the card no more changes than the IV. */
static void answered(tw_card *card, tw_session *terminal, text command, text supply, text answer)
{
    text response, opened;
    tw_card before = *card;
    expect(call_answer(card, command, supply, TW_ANSWER_ROOM_BYTES, &response) == TW_DONE, "ANSWER is refused");
    expect(call_unseal(terminal, response, TW_UNSEAL_ROOM_BYTES, &opened) == TW_DONE, "UNSEAL is refused");
    expect(same(opened, answer), "the answer");
    memcpy(before.iv, card->iv, sizeof before.iv);
    expect(memcmp(card, &before, sizeof before) == 0, "the card is as it was, but for its IV");
}

/* A phrase of this P1: every supply of another length is refused, and leaves the card for the right one. */
static void phrase(tw_card *card, tw_session *terminal, uint8_t p1)
{
    const size_t entropy_bytes = (size_t)TW_ENTROPY_BYTES_PER_CHECKSUM_BIT * p1;
    const text entropy = made_up(p1, entropy_bytes), words = words_of(entropy);
    const text command = sealed_command(card, terminal, p1, 0, none(), TW_SUPPLY_MNEMONIC);
    text wrote;
    for (size_t bytes = 0; bytes <= TW_SUPPLY_MAX_BYTES; bytes++) {
        if (bytes != entropy_bytes) {
            expect(call_answer(card, command, filled(1, bytes), TW_ANSWER_ROOM_BYTES, &wrote) == TW_BAD_SUPPLY, "another length");
        }
    }
    expect(call_answer(card, command, entropy, TW_ANSWER_ROOM_BYTES - 1, &wrote) == TW_ROOM, "a small buffer");
    expect(words.count == 6u * p1, "6 times P1 bytes of numbers");
    answered(card, terminal, command, entropy, joined(words, status(TW_SW_SUCCESS)));
    reversed(words, entropy);
    /* And from what ENTROPY gives the same words again. */
    expect(call_entropy(words, TW_ENTROPY_ROOM_BYTES, &wrote) == TW_DONE, "ENTROPY is refused");
    answered(card, terminal, sealed_command(card, terminal, p1, 0, none(), TW_SUPPLY_MNEMONIC), wrote, joined(words, status(TW_SW_SUCCESS)));
}

void phrases(tw_card *card, tw_session *terminal)
{
    const text wrong_parameters = status(TW_SW_WRONG_PARAMETERS), wrong_data = status(TW_SW_WRONG_DATA);
    for (unsigned p1 = 0; p1 <= 0xFF; p1++) {
        const int is_phrase = p1 >= TW_P1_MNEMONIC_12_WORDS && p1 <= TW_P1_MNEMONIC_24_WORDS;
        about("GENERATE MNEMONIC with data");
        answered(card, terminal, sealed_command(card, terminal, p1, 0, byte(0), TW_SUPPLY_NONE), none(),
                 is_phrase ? wrong_data : wrong_parameters);
        about("GENERATE MNEMONIC");
        if (is_phrase) {
            phrase(card, terminal, (uint8_t)p1);
        } else {
            answered(card, terminal, sealed_command(card, terminal, p1, 0, none(), TW_SUPPLY_NONE), none(), wrong_parameters);
        }
    }
    about("GENERATE MNEMONIC with P2 01");
    answered(card, terminal, sealed_command(card, terminal, TW_P1_MNEMONIC_12_WORDS, 1, byte(0), TW_SUPPLY_NONE), none(), wrong_parameters);
    about("GENERATE MNEMONIC with the most data");
    answered(card, terminal,
             sealed_command(card, terminal, TW_P1_MNEMONIC_24_WORDS, 0, filled(0x5E, TW_DATA_MAX_BYTES), TW_SUPPLY_NONE), none(), wrong_data);
}
