/* A call made by the functions of addercoil.h: see call.h. */
#include "call.h"
#include <addercoil.h>
#include <string.h>

/* The result array where its elements are of 64 bits. */
static uint64_t *words_of(const struct call *call, uint8_t *result) {
    return shapes[call->function].result == WORDS ? (uint64_t *)result : NULL;
}

/* The calls that are lent a table. */
static uint64_t with_table(const struct call *call, uint8_t *t, const uint8_t *given, uint8_t *result) {
    const uint64_t *n = call->numbers;
    addercoil_size size = call->table_size + call->more[TABLE_ARRAY];
    addercoil_size given_size = call->given_size + call->more[GIVEN_ARRAY];
    addercoil_size length = call->result_length + call->more[RESULT_ARRAY];
    uint64_t *words = words_of(call, result);
    switch (call->function) {
    case SET_UP:
        return addercoil_set_up(t, size);
    case SET_UP_AT:
        return addercoil_set_up_at(t, size, (int32_t)n[0], (uint32_t)n[1]);
    case RECEIVE:
        return addercoil_receive(t, size, given, given_size, n[0]);
    case RECEIVE_STAMP:
        return addercoil_receive_stamp(t, size, given, given_size, (uint32_t)n[0], words, length);
    case CLOCK:
        return addercoil_clock(t, size, words, length);
    case SITE:
        return addercoil_site(t, size, words, length);
    case NEXT:
        return addercoil_next(t, size, (uint32_t)n[0], words, length);
    case LOOK_UP:
        return addercoil_look_up(t, size, (uint32_t)n[0], words, length);
    case LISTING:
        return addercoil_listing(t, size, n[0], (uint32_t)n[1], call->order,
                                 call->order_length + call->more[ORDER_ARRAY], result, length, call->written,
                                 call->written_length + call->more[WRITTEN_ARRAY]);
    case HEADER:
        return addercoil_header(t, size, n[0], (uint32_t)n[1], result, length);
    case LINE:
        return addercoil_line(t, size, (uint32_t)n[0], (uint32_t)n[1], result, length);
    case CHECK:
        return addercoil_check(t, size, given, given_size, words, length);
    case MERGE:
        return addercoil_merge(t, size, given, given_size, result, length, call->written,
                               call->written_length + call->more[WRITTEN_ARRAY]);
    default:
        return addercoil_feed_block(t, size, given, given_size, n[0], words, length);
    }
}

/* The double of a bit pattern. */
static double double_of(uint64_t pattern) {
    double made;
    memcpy(&made, &pattern, sizeof made);
    return made;
}

/* The calls that are not. */
static uint64_t without_table(const struct call *call, const uint8_t *given, uint8_t *result) {
    const uint64_t *n = call->numbers;
    addercoil_size given_size = call->given_size + call->more[GIVEN_ARRAY];
    addercoil_size length = call->result_length + call->more[RESULT_ARRAY];
    uint64_t *words = words_of(call, result);
    switch (call->function) {
    case VERSION:
        return addercoil_version();
    case TABLE_BYTES:
        return addercoil_table_bytes(n[0]);
    case REPLAY:
        return addercoil_replay(given, given_size, (uint32_t)n[0], (uint32_t)n[1], words, length);
    case REPLAY_AT:
        return addercoil_replay_at(given, given_size, (uint32_t)n[0], (uint32_t)n[1], (int32_t)n[2], (uint32_t)n[3],
                                   words, length);
    case REPLAY_COARSE:
        return addercoil_replay_coarse(given, given_size, (uint32_t)n[0], (uint32_t)n[1], (uint32_t)n[2], words,
                                       length);
    case ENCODE_POSITION:
        return addercoil_encode_position((int32_t)n[0], (uint32_t)n[1], (uint32_t)n[2], (uint32_t)n[3], words, length);
    case PAIR:
        return addercoil_pair((uint32_t)n[0], (uint32_t)n[1], (uint32_t)n[2], (uint32_t)n[3], (uint32_t)n[4], words,
                              length);
    case SINGLE:
        return addercoil_single((int32_t)n[0], (uint32_t)n[1], (uint32_t)n[2], (uint32_t)n[3], (uint32_t)n[4],
                                (uint32_t)n[5], words, length);
    case ENCODE_POSITION_COARSE:
        return addercoil_encode_position_coarse((int32_t)n[0], (uint32_t)n[1], (uint32_t)n[2], words, length);
    case PAIR_COARSE:
        return addercoil_pair_coarse((uint32_t)n[0], (uint32_t)n[1], (uint32_t)n[2], (uint32_t)n[3], (uint32_t)n[4],
                                     words, length);
    case SINGLE_COARSE:
        return addercoil_single_coarse((int32_t)n[0], (uint32_t)n[1], (uint32_t)n[2], (uint32_t)n[3], (uint32_t)n[4],
                                       words, length);
    case DEGREES:
        return addercoil_degrees((int32_t)n[0], (uint32_t)n[1], (double *)words, length);
    case FROM_DEGREES:
        return addercoil_from_degrees(double_of(n[0]), double_of(n[1]), words, length);
    case DECODE:
        return addercoil_decode(given, given_size, words, length);
    case KEY:
        return addercoil_key(given, given_size, words, length);
    case ME:
        return addercoil_me(n[0], (uint32_t)n[1], words, length);
    default:
        return addercoil_encode((const uint64_t *)given, call->given_size / WORDS + call->more[GIVEN_ARRAY], result,
                                length);
    }
}

uint64_t call_by(const struct call *call, uint8_t *table, uint8_t *given, uint8_t *result) {
    if (shapes[call->function].table == NO_TABLE) {
        return without_table(call, given, result);
    }
    return with_table(call, table, given, result);
}
