#include "port_life.h"

#include "port_calls.h"
#include "sha_c.h"

#include <string.h>

static const uint8_t application_id[] = {'S', 't', 'a', 't', 'u', 's', 'W', 'a', 'l', 'l', 'e', 't', 'A', 'p', 'p'};
static const uint8_t chat_keys[] = {0x80, 0x00, 0x00, 0x2B, 0x80, 0x00, 0x00, 0x3C, 0x80, 0x00, 0x06, 0x2D};
static const uint8_t sealed_instructions[] = {
    TW_INS_MUTUAL, TW_INS_UNPAIR, TW_INS_GET_STATUS, TW_INS_VERIFY, TW_INS_CHANGE, TW_INS_UNBLOCK, TW_INS_LOAD, TW_INS_DERIVE, TW_INS_REMOVE,
    TW_INS_SET_PINLESS_PATH, TW_INS_SIGN, TW_INS_EXPORT, TW_INS_SET_NDEF, TW_INS_GENERATE_MNEMONIC,
};

static tw_card card;
static tw_session terminal;
static size_t succeeded[256];

size_t successes(unsigned ins)
{
    return succeeded[ins & 0xFF];
}

static bytes none(void)
{
    const bytes b = {0, {0}};
    return b;
}

static bytes pair_of(unsigned first, unsigned second)
{
    const uint8_t two[] = {(uint8_t)first, (uint8_t)second};
    return copied(two, sizeof two);
}

/* A command without sealing. */
static bytes plain(unsigned cla, unsigned ins, unsigned p1, bytes data)
{
    const uint8_t head[] = {(uint8_t)cla, (uint8_t)ins, (uint8_t)p1, 0x00, (uint8_t)data.count};
    return joined(copied(head, sizeof head), data);
}

/* Here and below each draw is a statement of its own, or the only one of a call: C leaves open in which order arguments are worked out. */
static void flip_bit(uint8_t *at, size_t count)
{
    const size_t place = below(count), bit = below(8);
    at[place] ^= (uint8_t)(1U << bit);
}

/* Now and then another byte, a byte less, or other bytes of another length. */
static bytes perhaps_damaged(bytes b, size_t chances)
{
    if (!one_in(chances)) {
        return b;
    }
    switch (below(4)) {
    case 0:
        return drawn(below(300));
    case 1:
        b.count = b.count == 0 ? 0 : below(b.count);
        return b;
    default:
        if (b.count > 0) {
            flip_bit(b.at, b.count);
        }
        return b;
    }
}

static size_t perhaps_small(size_t room_bytes)
{
    return one_in(25) ? below(room_bytes + 8) : room_bytes;
}

static size_t supply_bytes(unsigned kind, const bytes *command)
{
    static const size_t lengths[] = {
        0, TW_SUPPLY_INIT_BYTES, TW_SUPPLY_OPEN_BYTES, TW_SUPPLY_MUTUAL_BYTES, TW_SUPPLY_PAIR_FIRST_BYTES, TW_SUPPLY_PAIR_FINAL_BYTES,
        TW_SUPPLY_LOAD_BYTES, TW_SUPPLY_DERIVE_BYTES, TW_SUPPLY_SIGN_BYTES, TW_SUPPLY_EXPORT_BYTES,
    };
    return kind < TW_SUPPLY_MNEMONIC ? lengths[kind] : (size_t)TW_ENTROPY_BYTES_PER_CHECKSUM_BIT * command->at[2];
}

static int has_flag(unsigned kind)
{
    return kind == TW_SUPPLY_INIT || kind == TW_SUPPLY_OPEN || kind == TW_SUPPLY_LOAD || kind == TW_SUPPLY_DERIVE || kind == TW_SUPPLY_EXPORT;
}

/* ASK and ANSWER, with the supply that ASK names, now and then damaged; `forced` is taken for it where it has bytes. Gives the answer. */
static bytes served(bytes command, bytes forced)
{
    bytes wrote;
    const tw_asked asked = call_ask(&card, &command, perhaps_small(TW_ASK_ROOM_BYTES), &wrote);
    bytes supply = forced.count > 0 && asked.kind != TW_SUPPLY_NONE ? forced : drawn(supply_bytes(asked.kind, &command));
    if (has_flag(asked.kind)) {
        supply.at[0] = one_in(15) ? 0x00 : 0x01;
    }
    supply = perhaps_damaged(supply, 30);
    const tw_card before = card;
    const tw_answered answered = call_answer(&card, &command, &supply, perhaps_small(TW_ANSWER_ROOM_BYTES), &wrote);
    if (answered.refusal == TW_DONE && one_in(20)) {
        card = before; /* a host that loses the power before it has stored the card */
    }
    return wrote;
}

static int is_success(const bytes *answer)
{
    return answer->count >= TW_STATUS_BYTES && answer->at[answer->count - 2] == 0x90 && answer->at[answer->count - 1] == 0x00;
}

static void plainly(bytes command)
{
    const bytes answer = served(perhaps_damaged(command, 12), none());
    if (command.count > 1 && is_success(&answer)) {
        succeeded[command.at[1]]++;
    }
}

/* INIT's ciphertext is that of SEAL, with the AES key and the IV as its session. */
static void init(void)
{
    bytes supply = drawn(TW_SUPPLY_INIT_BYTES), sealed;
    tw_session once;
    const uint8_t header[TW_HEADER_BYTES] = {0};
    draw((uint8_t *)&once, sizeof once);
    memcpy(once.enc_key, supply.at + 1, TW_KEY_BYTES);
    supply.at[0] = 0x01;
    bytes data = joined(pair_of(TW_PUBLIC_KEY_BYTES, 0x04), drawn(TW_PUBLIC_KEY_BYTES - 1));
    data = joined(data, copied(once.iv, TW_IV_BYTES));
    const bytes pin = digits(TW_PIN_BYTES), puk = digits(TW_PUK_BYTES), secret = drawn(TW_KEY_BYTES);
    const bytes content = joined(joined(pin, puk), secret);
    if (call_seal(&once, header, &content, TW_SEAL_ROOM_BYTES, &sealed).refusal != TW_DONE) {
        return;
    }
    data = joined(data, copied(sealed.at + TW_HEADER_BYTES + 1 + TW_MAC_BYTES, 64));
    const bytes answer = served(perhaps_damaged(plain(TW_CLASS_CARD, TW_INS_INIT, 0, data), 12), supply);
    succeeded[TW_INS_INIT] += (size_t)is_success(&answer);
}

/* Both steps of PAIR; the terminal's hash is of the library sha_c. */
static void pair(void)
{
    uint8_t cryptogram[TW_KEY_BYTES];
    plainly(plain(TW_CLASS_CARD, TW_INS_PAIR, TW_P1_PAIR_FIRST, drawn(TW_KEY_BYTES)));
    memcpy(cryptogram, card.expected, sizeof cryptogram);
    if (one_in(3)) {
        const bytes message = joined(copied(card.secret, TW_KEY_BYTES), drawn(TW_KEY_BYTES));
        uint8_t digest[TW_DIGEST_BYTES];
        if (tw_sha256(message.at, message.count, digest, sizeof digest) == TW_HASH_DONE && one_in(8)) {
            memcpy(cryptogram, digest, sizeof cryptogram); /* of another challenge */
        }
    }
    plainly(plain(TW_CLASS_CARD, TW_INS_PAIR, TW_P1_PAIR_FINAL, copied(cryptogram, sizeof cryptogram)));
}

static void open_channel(void)
{
    bytes supply = drawn(TW_SUPPLY_OPEN_BYTES), point = drawn(TW_PUBLIC_KEY_BYTES);
    size_t slot = below(TW_SLOTS);
    for (size_t k = 0; k < TW_SLOTS && card.slots[slot].filled == 0; k++) {
        slot = (slot + 1) % TW_SLOTS;
    }
    point.at[0] = 0x04;
    const bytes answer = served(perhaps_damaged(plain(TW_CLASS_CARD, TW_INS_OPEN, (unsigned)slot, point), 12), supply);
    succeeded[TW_INS_OPEN] += (size_t)is_success(&answer);
    memcpy(terminal.enc_key, card.enc_key, TW_KEY_BYTES);
    memcpy(terminal.mac_key, card.mac_key, TW_KEY_BYTES);
    memcpy(terminal.iv, card.iv, TW_IV_BYTES);
}

static bytes path(void)
{
    bytes p = drawn(TW_COMPONENT_BYTES * below(11));
    if (p.count >= sizeof chat_keys && one_in(2)) {
        memcpy(p.at, chat_keys, sizeof chat_keys);
    }
    return one_in(12) ? drawn(below(60)) : p;
}

static bytes field(unsigned tag, bytes content)
{
    return joined(pair_of(tag, (unsigned)content.count), content);
}

/* The data of LOAD by P1: 01 a plain key, 02 an extended one, 03 a seed. */
static bytes key_data(unsigned p1)
{
    if (p1 == TW_P1_LOAD_SEED) {
        return drawn(64);
    }
    bytes inner = one_in(2) ? field(0x80, drawn(TW_PUBLIC_KEY_BYTES)) : none();
    inner = joined(inner, field(0x81, drawn(TW_KEY_BYTES)));
    if (p1 == TW_P1_LOAD_EXTENDED) {
        inner = joined(inner, field(0x82, drawn(TW_KEY_BYTES)));
    }
    return inner.count < 128 ? field(0xA1, inner) : joined(pair_of(0xA1, 0x81), joined(copied((const uint8_t[]){(uint8_t)inner.count}, 1), inner));
}

static bytes verify_data(void)
{
    return one_in(4) ? digits(TW_PIN_BYTES) : copied(card.pin, TW_PIN_BYTES);
}

static bytes change_data(unsigned p1)
{
    return p1 == TW_P1_CHANGE_PIN ? digits(TW_PIN_BYTES) : p1 == TW_P1_CHANGE_PUK ? digits(TW_PUK_BYTES) : drawn(TW_KEY_BYTES);
}

static bytes unblock_data(void)
{
    const bytes puk = one_in(3) ? digits(TW_PUK_BYTES) : copied(card.puk, TW_PUK_BYTES), pin = digits(TW_PIN_BYTES);
    return joined(puk, pin);
}

static bytes tap_data(void)
{
    const size_t message_bytes = below(TW_TAP_MAX_BYTES - TW_TAP_COUNT_BYTES + 1);
    return joined(pair_of(0, (unsigned)message_bytes), drawn(message_bytes));
}

/* P1 and data of an instruction, mostly as the rules ask for them. */
static bytes data_of(unsigned ins, unsigned *p1, unsigned *p2)
{
    *p1 = 0;
    *p2 = 0;
    switch (ins) {
    case TW_INS_MUTUAL:
    case TW_INS_SIGN:
        return drawn(32);
    case TW_INS_UNPAIR:
        *p1 = (unsigned)below(TW_SLOTS + 1);
        return none();
    case TW_INS_GET_STATUS:
        *p1 = (unsigned)below(3);
        return none();
    case TW_INS_VERIFY:
        return verify_data();
    case TW_INS_CHANGE:
        *p1 = (unsigned)below(3);
        return change_data(*p1);
    case TW_INS_UNBLOCK:
        return unblock_data();
    case TW_INS_LOAD:
        *p1 = (unsigned)(1 + below(3));
        return key_data(*p1);
    case TW_INS_DERIVE:
    case TW_INS_SET_PINLESS_PATH:
        return path();
    case TW_INS_EXPORT:
        *p1 = (unsigned)below(3);
        *p2 = (unsigned)below(2);
        return *p1 == 0 ? none() : path();
    case TW_INS_SET_NDEF:
        return tap_data();
    case TW_INS_GENERATE_MNEMONIC:
        *p1 = (unsigned)(4 + below(5));
        return none();
    default:
        return drawn(below(20));
    }
}

/* From SEAL to UNSEAL; of GENERATE MNEMONIC back by ENTROPY. */
static void sealed(unsigned ins)
{
    unsigned p1, p2;
    bytes command, opened;
    const bytes data = perhaps_damaged(data_of(ins, &p1, &p2), 15);
    const uint8_t header[TW_HEADER_BYTES] = {TW_CLASS_CARD, (uint8_t)ins, (uint8_t)p1, (uint8_t)p2};
    if (call_seal(&terminal, header, &data, perhaps_small(TW_SEAL_ROOM_BYTES), &command).refusal != TW_DONE) {
        return;
    }
    const bytes answer = perhaps_damaged(served(perhaps_damaged(command, 40), none()), 40);
    if (call_unseal(&terminal, &answer, perhaps_small(TW_UNSEAL_ROOM_BYTES), &opened).refusal != TW_DONE || !is_success(&opened)) {
        return;
    }
    succeeded[ins]++;
    if (ins == TW_INS_GENERATE_MNEMONIC) {
        opened.count -= TW_STATUS_BYTES;
        const bytes words = perhaps_damaged(opened, 3);
        call_entropy(&words, perhaps_small(TW_ENTROPY_ROOM_BYTES), &opened);
    }
}

/* WRITE; the tap read and READ of what it wrote, now and then damaged. */
static void store(void)
{
    bytes record;
    if (call_write(&card, perhaps_small(TW_WRITE_ROOM_BYTES), &record).refusal != TW_DONE) {
        return;
    }
    const bytes factory = drawn(below(3) * 9), kept = perhaps_damaged(record, 4);
    tw_card again;
    memset(&again, 0x33, sizeof again);
    call_tap(&kept, &factory);
    if (call_read(&again, &kept) == TW_DONE && one_in(2)) {
        card = again;
    }
}

/* A card with one byte changed: most are not sound. */
static void damaged_card(void)
{
    const tw_card whole = card;
    bytes wrote;
    const unsigned ins = sealed_instructions[below(sizeof sealed_instructions)];
    const bytes command = plain(TW_CLASS_CARD, ins, 0, drawn(below(64))), supply = drawn(below(40));
    flip_bit((uint8_t *)&card, sizeof card);
    call_sound(&card);
    call_ask(&card, &command, TW_ASK_ROOM_BYTES, &wrote);
    call_write(&card, TW_WRITE_ROOM_BYTES, &wrote);
    call_answer(&card, &command, &supply, TW_ANSWER_ROOM_BYTES, &wrote);
    call_reset(&card);
    card = whole;
}

static void walk(void)
{
    bytes input = none();
    for (size_t k = below(6); k > 0; k--) {
        input = joined(input, one_in(2) ? key_data((unsigned)(1 + below(2))) : field(0x80, drawn(below(60))));
    }
    input = perhaps_damaged(input, 2);
    call_walk(&input);
}

static void step(void)
{
    if (card.initialised == 0) {
        init();
    } else if (card.stage == TW_STAGE_OPENED) {
        sealed(one_in(15) ? TW_INS_SIGN : TW_INS_MUTUAL);
    } else if (card.stage == TW_STAGE_CLOSED) {
        if (card.slots[0].filled == 0 || one_in(6)) {
            pair();
        } else {
            open_channel();
        }
    } else {
        sealed(card.verified == 0 && one_in(2) ? (card.pin_tries == 0 ? TW_INS_UNBLOCK : TW_INS_VERIFY)
                                               : sealed_instructions[below(sizeof sealed_instructions)]);
    }
}

void play_life(size_t steps)
{
    call_fresh(&card);
    for (size_t k = 0; k < steps; k++) {
        switch (below(40)) {
        case 0:
            call_reset(&card);
            break;
        case 1:
            store();
            break;
        case 2:
            damaged_card();
            break;
        case 3:
        case 4:
            walk();
            break;
        case 5:
            plainly(plain(TW_CLASS_SELECT, TW_INS_SELECT, TW_P1_SELECT, copied(application_id, sizeof application_id)));
            break;
        case 6: {
            const bytes command = drawn(below(64)), supply = drawn(below(40));
            bytes wrote;
            call_answer(&card, &command, &supply, TW_ANSWER_ROOM_BYTES, &wrote);
            break;
        }
        default:
            step();
        }
    }
}
