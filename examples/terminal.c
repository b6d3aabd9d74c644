#include "terminal.h"

#include "curve.h"
#include "hash.h"

#include <string.h>

enum {
    LC_BYTES = 1,
    FIELD_BYTES = 1 + 1, /* tag and length before a field's content */
    SELECT_FRESH_BYTES = FIELD_BYTES + TW_PUBLIC_KEY_BYTES,
    SELECT_UID_BYTES = FIELD_BYTES + TW_UID_BYTES,
    INIT_CONTENT_BYTES = TW_PIN_BYTES + TW_PUK_BYTES + TW_KEY_BYTES,
    INIT_CIPHERTEXT_BYTES = 64, /* the content, padded to a multiple of 16 */
    INIT_DATA_BYTES = 1 + TW_PUBLIC_KEY_BYTES + TW_IV_BYTES + INIT_CIPHERTEXT_BYTES,
    SEALED_CIPHERTEXT_AT = TW_HEADER_BYTES + LC_BYTES + TW_MAC_BYTES,
    LOAD_HEAD_MAX_BYTES = FIELD_BYTES + 1, /* A1 length, or A1 81 length */
    LOAD_FIELDS_MAX_BYTES = FIELD_BYTES + TW_PUBLIC_KEY_BYTES + 2 * (FIELD_BYTES + TW_KEY_BYTES)
};

/* The status word at an answer's end; what is before it is the response data. */
static unsigned status_word(struct terminal *terminal, size_t answer_bytes)
{
    if (answer_bytes < TW_STATUS_BYTES) {
        terminal->data_bytes = 0;
        return 0;
    }
    terminal->data_bytes = answer_bytes - TW_STATUS_BYTES;
    return (unsigned)terminal->data[terminal->data_bytes] << 8 | terminal->data[terminal->data_bytes + 1];
}

unsigned terminal_plain(struct terminal *terminal, uint8_t cla, uint8_t ins, uint8_t p1, const void *data, size_t data_bytes)
{
    uint8_t command[TW_HEADER_BYTES + LC_BYTES + UINT8_MAX] = {cla, ins, p1, 0x00, (uint8_t)data_bytes};
    if (data_bytes == 0 || data_bytes > UINT8_MAX) {
        return status_word(terminal, 0);
    }
    memcpy(command + TW_HEADER_BYTES + LC_BYTES, data, data_bytes);
    return status_word(terminal, transmit(command, TW_HEADER_BYTES + LC_BYTES + data_bytes, terminal->data));
}

unsigned terminal_sealed(struct terminal *terminal, uint8_t ins, uint8_t p1, uint8_t p2, const void *data, size_t data_bytes)
{
    const uint8_t header[TW_HEADER_BYTES] = {TW_CLASS_CARD, ins, p1, p2};
    uint8_t sealed[TW_SEAL_ROOM_BYTES], answer[TW_ANSWER_ROOM_BYTES];
    tw_told told = tw_seal(&terminal->session, header, data, data_bytes, sealed, sizeof sealed);
    if (told.refusal == TW_DONE) {
        const size_t answer_bytes = transmit(sealed, told.count, answer);
        told = tw_unseal(&terminal->session, answer, answer_bytes, terminal->data, sizeof terminal->data);
    }
    tw_wipe_stack(); /* what SEAL and UNSEAL left there */
    return status_word(terminal, told.count); /* after a refusal the count is 0 */
}

unsigned terminal_select(struct terminal *terminal)
{
    const unsigned status = terminal_plain(terminal, TW_CLASS_SELECT, TW_INS_SELECT, TW_P1_SELECT, "StatusWalletApp", 15);
    /* Before INIT the public key's field is all there is; after it, a head and the UID's field are before it. */
    const size_t at = terminal->data_bytes == SELECT_FRESH_BYTES ? 0 : FIELD_BYTES + SELECT_UID_BYTES;
    if (status != TW_SW_SUCCESS || terminal->data_bytes < at + FIELD_BYTES + TW_PUBLIC_KEY_BYTES || terminal->data[at] != 0x80) {
        return status == TW_SW_SUCCESS ? 0 : status;
    }
    memcpy(terminal->card_public_key, terminal->data + at + FIELD_BYTES, TW_PUBLIC_KEY_BYTES);
    return status;
}

unsigned terminal_init(struct terminal *terminal, const char pin[TW_PIN_BYTES], const char puk[TW_PUK_BYTES],
                       const uint8_t pairing_secret[TW_KEY_BYTES])
{
    static const uint8_t no_header[TW_HEADER_BYTES];
    uint8_t data[INIT_DATA_BYTES] = {TW_PUBLIC_KEY_BYTES}, *const point = data + 1, *const iv = point + TW_PUBLIC_KEY_BYTES;
    uint8_t private_key[TW_KEY_BYTES], content[INIT_CONTENT_BYTES], sealed[TW_SEAL_ROOM_BYTES];
    tw_session once = {{0}, {0}, {0}};
    unsigned status = 0;
    memcpy(content, pin, TW_PIN_BYTES);
    memcpy(content + TW_PIN_BYTES, puk, TW_PUK_BYTES);
    memcpy(content + TW_PIN_BYTES + TW_PUK_BYTES, pairing_secret, TW_KEY_BYTES);
    /* There is no channel yet: the key is that of a key pair made for this command. SEAL pads and enciphers as INIT does, so its ciphertext
       is taken from a session with that key; the MAC before it is left. */
    if (keys_pair(private_key, point) && random_bytes(iv, TW_IV_BYTES) &&
        curve_ecdh(private_key, terminal->card_public_key, once.enc_key)) {
        memcpy(once.iv, iv, TW_IV_BYTES);
        if (tw_seal(&once, no_header, content, sizeof content, sealed, sizeof sealed).refusal == TW_DONE) {
            memcpy(iv + TW_IV_BYTES, sealed + SEALED_CIPHERTEXT_AT, INIT_CIPHERTEXT_BYTES);
            status = terminal_plain(terminal, TW_CLASS_CARD, TW_INS_INIT, 0x00, data, sizeof data);
        }
    }
    tw_wipe(private_key, sizeof private_key);
    tw_wipe(content, sizeof content);
    tw_wipe(&once, sizeof once);
    return status;
}

unsigned terminal_pair(struct terminal *terminal, const uint8_t pairing_secret[TW_KEY_BYTES])
{
    uint8_t challenge[TW_KEY_BYTES], cryptogram[TW_KEY_BYTES], client_cryptogram[TW_KEY_BYTES];
    if (!random_bytes(challenge, TW_KEY_BYTES)) {
        return 0;
    }
    unsigned status = terminal_plain(terminal, TW_CLASS_CARD, TW_INS_PAIR, TW_P1_PAIR_FIRST, challenge, sizeof challenge);
    if (status != TW_SW_SUCCESS) {
        return status;
    }
    /* The card shows that it knows the secret, by the cryptogram of our challenge; then we do, by that of the card's challenge. */
    if (terminal->data_bytes != 2 * TW_KEY_BYTES || !keys_pairing(pairing_secret, challenge, cryptogram) ||
        !same_bytes(terminal->data, cryptogram, TW_KEY_BYTES) ||
        !keys_pairing(pairing_secret, terminal->data + TW_KEY_BYTES, client_cryptogram)) {
        return 0;
    }
    status = terminal_plain(terminal, TW_CLASS_CARD, TW_INS_PAIR, TW_P1_PAIR_FINAL, client_cryptogram, sizeof client_cryptogram);
    if (status != TW_SW_SUCCESS) {
        return status;
    }
    if (terminal->data_bytes != 1 + TW_KEY_BYTES || !keys_pairing(pairing_secret, terminal->data + 1, terminal->pairing_key)) {
        return 0;
    }
    terminal->slot = terminal->data[0];
    return status;
}

unsigned terminal_open(struct terminal *terminal)
{
    uint8_t private_key[TW_KEY_BYTES], point[TW_PUBLIC_KEY_BYTES], ecdh_secret[TW_KEY_BYTES], own_random[TW_KEY_BYTES];
    channel_keys keys = {{0}, {0}};
    unsigned status = 0;
    if (keys_pair(private_key, point) && random_bytes(own_random, sizeof own_random) &&
        curve_ecdh(private_key, terminal->card_public_key, ecdh_secret)) {
        status = terminal_plain(terminal, TW_CLASS_CARD, TW_INS_OPEN, terminal->slot, point, sizeof point);
    }
    if (status == TW_SW_SUCCESS) {
        const uint8_t *const salt = terminal->data, *const iv = salt + TW_KEY_BYTES;
        status = 0;
        if (terminal->data_bytes == TW_KEY_BYTES + TW_IV_BYTES && keys_channel(ecdh_secret, terminal->pairing_key, salt, &keys)) {
            memcpy(terminal->session.enc_key, keys.enc_key, TW_KEY_BYTES);
            memcpy(terminal->session.mac_key, keys.mac_key, TW_KEY_BYTES);
            memcpy(terminal->session.iv, iv, TW_IV_BYTES);
            status = terminal_sealed(terminal, TW_INS_MUTUAL, 0x00, 0x00, own_random, sizeof own_random);
        }
    }
    tw_wipe(private_key, sizeof private_key);
    tw_wipe(ecdh_secret, sizeof ecdh_secret);
    tw_wipe(&keys, sizeof keys);
    return status;
}

/* A field: tag, length, content. Gives where it ends. */
static uint8_t *field(uint8_t *at, uint8_t tag, const uint8_t *content, uint8_t content_bytes)
{
    at[0] = tag;
    at[1] = content_bytes;
    memcpy(at + FIELD_BYTES, content, content_bytes);
    return at + FIELD_BYTES + content_bytes;
}

unsigned terminal_load(struct terminal *terminal, uint8_t p1, const extended_key *key, const uint8_t *public_key)
{
    uint8_t data[LOAD_HEAD_MAX_BYTES + LOAD_FIELDS_MAX_BYTES], *const fields = data + LOAD_HEAD_MAX_BYTES, *end = fields;
    if (public_key != NULL) {
        end = field(end, 0x80, public_key, TW_PUBLIC_KEY_BYTES);
    }
    end = field(end, 0x81, key->private_key, TW_KEY_BYTES);
    if (p1 == TW_P1_LOAD_EXTENDED) {
        end = field(end, 0x82, key->chain_code, TW_KEY_BYTES);
    }
    /* The head goes before the fields: a length of 128 or more has the byte 81 before it. */
    const size_t fields_bytes = (size_t)(end - fields);
    uint8_t *head = fields;
    *--head = (uint8_t)fields_bytes;
    if (fields_bytes >= 0x80) {
        *--head = 0x81;
    }
    *--head = 0xA1;
    const unsigned status = terminal_sealed(terminal, TW_INS_LOAD, p1, 0x00, head, (size_t)(end - head));
    tw_wipe(data, sizeof data);
    return status;
}

unsigned terminal_word(const struct terminal *terminal, size_t at)
{
    const uint8_t *const number = terminal->data + at * TW_WORD_NUMBER_BYTES;
    return (unsigned)number[0] << 8 | number[1];
}

int terminal_signature(const struct terminal *terminal, const uint8_t **public_key, const uint8_t **der, size_t *der_bytes)
{
    /* A0 length, which is one byte, or from 128 on 81 and one byte; 80 41 and the public key; the signature to the end. */
    const uint8_t *const data = terminal->data;
    const size_t head_bytes = data[1] == 0x81 ? FIELD_BYTES + 1 : FIELD_BYTES;
    const size_t key_at = head_bytes + FIELD_BYTES, der_at = key_at + TW_PUBLIC_KEY_BYTES;
    if (terminal->data_bytes <= der_at || data[0] != 0xA0 || data[head_bytes - 1] != terminal->data_bytes - head_bytes ||
        data[head_bytes] != 0x80 || data[head_bytes + 1] != TW_PUBLIC_KEY_BYTES) {
        return 0;
    }
    *public_key = data + key_at;
    *der = data + der_at;
    *der_bytes = terminal->data_bytes - der_at;
    return 1;
}
