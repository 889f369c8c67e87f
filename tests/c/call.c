/* A call of any function of addercoil.h as a value: see call.h. */
#include "call.h"
#include "host.h"
#include <addercoil.h>
#include <string.h>

const struct shape shapes[FUNCTIONS] = {
    {"version", NO_TABLE, NOTHING, 0, NOTHING},
    {"table_bytes", NO_TABLE, NOTHING, 1, NOTHING},
    {"set_up", WRITES_TABLE, NOTHING, 0, NOTHING},
    {"set_up_at", WRITES_TABLE, NOTHING, 2, NOTHING},
    {"receive", WRITES_TABLE, BYTES, 1, NOTHING},
    {"receive_stamp", WRITES_TABLE, BYTES, 3, WORDS},
    {"clock", READS_TABLE, NOTHING, 0, WORDS},
    {"site", READS_TABLE, NOTHING, 0, WORDS},
    {"next", READS_TABLE, NOTHING, 1, WORDS},
    {"look_up", READS_TABLE, NOTHING, 1, WORDS},
    {"replay", NO_TABLE, BYTES, 2, WORDS},
    {"replay_at", NO_TABLE, BYTES, 4, WORDS},
    {"replay_coarse", NO_TABLE, BYTES, 3, WORDS},
    {"listing", READS_TABLE, NOTHING, 2, BYTES},
    {"header", READS_TABLE, NOTHING, 2, BYTES},
    {"line", READS_TABLE, NOTHING, 2, BYTES},
    {"feed_block", WRITES_TABLE, BYTES, 1, WORDS},
    {"check", READS_TABLE, BYTES, 0, WORDS},
    {"merge", READS_TABLE, BYTES, 0, BYTES},
    {"encode_position", NO_TABLE, NOTHING, 4, WORDS},
    {"pair", NO_TABLE, NOTHING, 5, WORDS},
    {"single", NO_TABLE, NOTHING, 6, WORDS},
    {"encode_position_coarse", NO_TABLE, NOTHING, 3, WORDS},
    {"pair_coarse", NO_TABLE, NOTHING, 5, WORDS},
    {"single_coarse", NO_TABLE, NOTHING, 5, WORDS},
    {"degrees", NO_TABLE, NOTHING, 2, WORDS},
    {"from_degrees", NO_TABLE, NOTHING, 2, WORDS},
    {"decode", NO_TABLE, BYTES, 0, WORDS},
    {"key", NO_TABLE, BYTES, 0, WORDS},
    {"encode", NO_TABLE, WORDS, 0, BYTES},
    {"me", NO_TABLE, NOTHING, 2, WORDS},
};

static struct lent table, given, result, order, written;

int call_has_written(enum function function) {
    return function == LISTING || function == MERGE;
}

void call_open(void) {
    lent_open(&table, LENT_MOST);
    lent_open(&given, LENT_MOST);
    lent_open(&result, LENT_MOST);
    lent_open(&order, LENT_ORDER);
    lent_open(&written, LENT_WRITTEN);
}

/* Lends a copy of the bytes. */
static void lend_copy(struct lent *lent, const uint8_t *bytes, size_t size, const struct call *call) {
    void *at = lend(lent, size, call->below, call->null);
    if (size != 0) {
        memcpy(at, bytes, size);
    }
}

/* Whether the lent bytes are those, from an offset on. */
static int same(const struct lent *lent, const uint8_t *bytes, size_t size, size_t from) {
    return size <= from || memcmp(lent->at + from, bytes + from, size - from) == 0;
}

/* Whether an answer says that the clock moved, and nothing else of the table: 3 to 6 and 12. */
static int clock_moved(uint64_t answer) {
    return (answer >= ADDERCOIL_REFUSED_PARITY && answer <= ADDERCOIL_REFUSED_FULL) ||
           answer == ADDERCOIL_REFUSED_NO_TRACK;
}

/* What an answer leaves of the table: after 1, 2, 7, 8 and 13 all of it, after 3 to 6 and 12 all but the clock, its
 * first 8 bytes. */
static int table_left(const struct call *call, uint64_t answer) {
    enum table_use use = shapes[call->function].table;
    if (use == NO_TABLE || (use == WRITES_TABLE && answer == 0)) {
        return 1;
    }
    return same(&table, call->table, call->table_size, use == WRITES_TABLE && clock_moved(answer) ? 8 : 0);
}

/* A byte of the result array before the call. */
static uint8_t byte_before(const struct call *call, size_t i) {
    if (call->function != RECEIVE_STAMP || i >= ADDERCOIL_STAMPS * WORDS) {
        return FRESH;
    }
    return ((const uint8_t *)(call->numbers + 1))[i];
}

/* Whether a lent array is as it was before the call. */
static int is_fresh(const struct lent *lent) {
    size_t i;
    for (i = 0; i < lent->size; i++) {
        if (lent->at[i] != FRESH) {
            return 0;
        }
    }
    return 1;
}

static int result_left(const struct call *call) {
    size_t i;
    for (i = 0; i < result.size; i++) {
        if (result.at[i] != byte_before(call, i)) {
            return 0;
        }
    }
    return is_fresh(&order) && is_fresh(&written);
}

/* Whether a call that answers so may have written its result: an accepted stamp is written, whatever its message earns.
 */
static int result_written(const struct call *call, uint64_t answer) {
    return answer == 0 || (call->function == RECEIVE_STAMP && clock_moved(answer));
}

/* What a call may not do, whatever it answers. */
static const char *fault_of(const struct call *call, uint64_t answer) {
    if (!lent_untouched(&table) || !lent_untouched(&given) || !lent_untouched(&result) || !lent_untouched(&order) ||
        !lent_untouched(&written)) {
        return "bytes beside a lent array were written";
    }
    if (!same(&given, call->given, call->given_size, 0)) {
        return "an array lent to be read was written";
    }
    if (!table_left(call, answer)) {
        return "a table was written that must be as it was";
    }
    if (!result_written(call, answer) && !result_left(call)) {
        return "a call that refused wrote its result";
    }
    return NULL;
}

/* Lends an array of words that hold nothing yet. */
static uint64_t *lend_words(struct lent *lent, size_t length, const struct call *call) {
    void *at = lend(lent, length * WORDS, call->below, call->null);
    if (length != 0) {
        memset(at, FRESH, length * WORDS);
    }
    return at;
}

struct outcome call_make(const struct call *call) {
    const struct shape *shape = &shapes[call->function];
    size_t size = call->result_length * shape->result, i;
    struct call with = *call;
    struct outcome outcome;
    lend_copy(&table, call->table, call->table_size, call);
    lend_copy(&given, call->given, call->given_size, call);
    lend(&result, size, call->below, call->null);
    for (i = 0; i < size; i++) {
        result.at[i] = byte_before(call, i);
    }
    with.order = lend_words(&order, call->order_length, call);
    with.written = lend_words(&written, call->written_length, call);
    outcome.answer = call_by(&with, table.at, given.at, result.at);
    outcome.table = table.at;
    outcome.result = result.at;
    outcome.written = written.at;
    outcome.fault = fault_of(call, outcome.answer);
    return outcome;
}

size_t call_byte_at(size_t i, size_t element) {
    return i ^ (element - 1); /* an element has 1 byte or 8 */
}

const char *call_decimal(uint64_t number, char *text) {
    char *at = text + CALL_DECIMAL - 1;
    *at = '\0';
    do {
        *--at = (char)('0' + number % 10);
        number /= 10;
    } while (number != 0);
    return at;
}

static void put_text(const char *text) {
    while (*text != '\0') {
        host_put(*text++);
    }
}

static void put_number(uint64_t number) {
    char text[CALL_DECIMAL];
    put_text(call_decimal(number, text));
}

/* A space, and the elements of an array in hex. */
static void hex_array(const uint8_t *bytes, size_t size, size_t element) {
    static const char digits[] = "0123456789abcdef";
    size_t i;
    host_put(' ');
    for (i = 0; i < size; i++) {
        uint8_t byte = bytes[call_byte_at(i, element)];
        host_put(digits[byte >> 4]);
        host_put(digits[byte & 15]);
    }
    if (size == 0) {
        host_put('-');
    }
}

void call_write(const struct call *call) {
    const struct shape *shape = &shapes[call->function];
    int i;
    put_text(shape->name);
    if (shape->table != NO_TABLE) {
        hex_array(call->table, call->table_size, BYTES);
    }
    if (shape->given != NOTHING) {
        hex_array(call->given, call->given_size, shape->given);
    }
    if (shape->result != NOTHING) {
        host_put(' ');
        put_number(call->result_length);
    }
    if (call->function == LISTING) {
        host_put(' ');
        put_number(call->order_length);
    }
    if (call_has_written(call->function)) {
        host_put(' ');
        put_number(call->written_length);
    }
    for (i = 0; i < shape->numbers; i++) {
        host_put(' ');
        put_number(call->numbers[i]);
    }
    host_put(' ');
}

void outcome_write(const struct call *call, const struct outcome *outcome) {
    const struct shape *shape = &shapes[call->function];
    put_text("= ");
    put_number(outcome->answer);
    if (shape->result != NOTHING) {
        hex_array(outcome->result, call->result_length * shape->result, shape->result);
    }
    if (call_has_written(call->function)) {
        hex_array(outcome->written, call->written_length * WORDS, WORDS);
    }
    if (shape->table == WRITES_TABLE) {
        hex_array(outcome->table, call->table_size, BYTES);
    }
    host_put('\n');
}
