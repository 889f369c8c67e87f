/*
 * Says how deep into the stack each function goes, in bytes, in the calls that the lines of what it is given say: depth
 * < LINES. Before a call it paints the stack below it, and afterwards looks how much of that is left. What this program
 * itself needs for a call is in the number.
 */
#include "host.h"
#include "lines.h"

enum { DEEPEST = 49152, ROOM = 256, LINES = (DEEPEST - ROOM) / 8 };

#define PAINT 0xC3C3C3C3C3C3C3C3u

static uint64_t result[LENT_MOST / WORDS], order[LENT_ORDER / WORDS], written[LENT_WRITTEN / WORDS];
static size_t depths[FUNCTIONS];
static size_t painted; /* how much is painted, from below, in elements */

/* Calls, with the stack painted below the frame of this function, but for ROOM bytes, in which it has its own. What is
 * painted stays so until something is written there. */
__attribute__((noinline)) static size_t depth_of(const struct call *call) {
    uint8_t *here = __builtin_frame_address(0);
    volatile uint64_t *below = (volatile uint64_t *)((uintptr_t)(here - DEEPEST) & ~(uintptr_t)7);
    while (painted < LINES) {
        below[painted++] = PAINT;
    }
    call_by(call, call->table_size == 0 ? NULL : call->table, call->given_size == 0 ? NULL : call->given,
            (uint8_t *)result);
    for (painted = 0; painted < LINES && below[painted] == PAINT; painted++) {
    }
    return DEEPEST - 8 * painted;
}

int main(void) {
    struct call call;
    unsigned long number;
    int i;
    for (number = 1; line_read(&call, number); number++) {
        size_t depth;
        call.order = order;
        call.written = written;
        depth = depth_of(&call);
        depths[call.function] = depth > depths[call.function] ? depth : depths[call.function];
    }
    for (i = 0; i < FUNCTIONS; i++) {
        char text[CALL_DECIMAL];
        const char *words[] = {shapes[i].name, " ", call_decimal(depths[i], text), "\n"}, *at;
        size_t word;
        for (word = 0; word < sizeof words / sizeof words[0]; word++) {
            for (at = words[word]; *at != '\0'; at++) {
                host_put(*at);
            }
        }
    }
    host_end(0);
    return 0;
}
