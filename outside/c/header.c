/* Nothing but include/treadlewisp.h, twice, six calls and both wipes: tools/library builds it as C11 and as C++17, links it and runs it. The
   header itself checks the offsets of what a call reports. */
#include "treadlewisp.h"
#include "treadlewisp.h"

int main(void)
{
    uint8_t empty_template[2] = {0xA1, 0x00}, buffer[TW_ANSWER_ROOM_BYTES] = {0};
    const uint8_t cut_field[3] = {0x80, 0x00, 0x81};
    tw_card card;
    const tw_walked walked = tw_walk(empty_template, sizeof empty_template), cut = tw_walk(cut_field, sizeof cut_field);
    tw_fresh(&card, buffer, buffer);
    const tw_answered answered = tw_answer(&card, cut_field, sizeof cut_field, cut_field, 0, buffer, sizeof buffer);
    const tw_tapped tapped = tw_tap(empty_template, sizeof empty_template, empty_template, sizeof empty_template);
    const tw_told counted = tw_entropy(cut_field, sizeof cut_field, buffer, TW_ENTROPY_ROOM_BYTES);
    tw_wipe_stack();
    tw_wipe(empty_template, sizeof empty_template);
    const int is_walked = walked.refusal == TW_DONE && walked.count == 0 && walked.fault_offset == 0;
    const int is_cut = cut.refusal == TW_MALFORMED && cut.count == 0 && cut.fault_offset == 2;
    const int is_answered = answered.refusal == TW_DONE && answered.count == TW_STATUS_BYTES && answered.fault_offset == TW_NO_FAULT;
    const int is_no_record = tapped.refusal == TW_NOT_RECORD && tapped.source == TW_TAP_NONE && tapped.offset == 0 && tapped.length == 0;
    const int is_no_phrase = counted.refusal == TW_WRONG_COUNT && counted.count == 0;
    return is_walked && is_cut && is_answered && is_no_record && is_no_phrase && empty_template[0] == 0x00 ? 0 : 1;
}
