/* The calls that lines say: see lines.h. */
#include "lines.h"
#include "host.h"
#include <string.h>

static uint8_t table[LENT_MOST], given[LENT_MOST];
static int next; /* the byte after those that were read */

void line_fault(const char *why, unsigned long number, int status) {
    char text[CALL_DECIMAL];
    host_say("line ");
    host_say(call_decimal(number, text));
    host_say(": ");
    host_say(why);
    host_say("\n");
    host_end(status);
}

/* Whether a word begins here, behind its space. */
static int word_begins(void) {
    while (next == ' ') {
        next = host_get();
    }
    return next > ' ';
}

static int digit(int c) {
    if (c >= '0' && c <= '9') {
        return c - '0';
    }
    return c >= 'a' && c <= 'f' ? c - 'a' + 10 : -1;
}

/* The elements of a word in hex, each so many bytes, low byte first; how many bytes they are. */
static size_t read_array(uint8_t *bytes, size_t element, unsigned long number) {
    size_t size = 0;
    if (!word_begins()) {
        line_fault("a word is missing", number, 2);
    }
    if (next == '-') {
        next = host_get();
        return 0;
    }
    while (digit(next) >= 0 && size < LENT_MOST) {
        int high = digit(next), low = digit(host_get());
        bytes[call_byte_at(size++, element)] = (uint8_t)(high * 16 + low);
        next = low < 0 ? '?' : host_get();
    }
    if (next > ' ' || size % element != 0) {
        line_fault("an array that cannot be lent", number, 2);
    }
    return size;
}

static uint64_t read_number(unsigned long number) {
    uint64_t read = 0;
    if (!word_begins()) {
        line_fault("a word is missing", number, 2);
    }
    for (; next >= '0' && next <= '9'; next = host_get()) {
        read = read * 10 + (uint64_t)(next - '0');
    }
    return read;
}

/* How many elements an array has that the call writes, so many at most. */
static size_t read_length(size_t most, unsigned long number) {
    uint64_t length = read_number(number);
    if (length > most) {
        line_fault("an array that cannot be lent", number, 2);
    }
    return (size_t)length;
}

static enum function read_function(unsigned long number) {
    char name[64];
    size_t size = 0;
    int i;
    for (; next > ' ' && size + 1 < sizeof name; next = host_get()) {
        name[size++] = (char)next;
    }
    name[size] = '\0';
    for (i = 0; i < FUNCTIONS; i++) {
        if (strcmp(name, shapes[i].name) == 0) {
            return (enum function)i;
        }
    }
    line_fault("no such function", number, 2);
    return FUNCTIONS;
}

int line_read(struct call *call, unsigned long number) {
    const struct shape *shape;
    int i;
    next = host_get();
    if (next < 0) {
        return 0;
    }
    memset(call, 0, sizeof *call);
    call->table = table;
    call->given = given;
    call->below = number % 2 * 8;
    call->null = 1;
    call->function = read_function(number);
    shape = &shapes[call->function];
    call->table_size = shape->table == NO_TABLE ? 0 : read_array(table, BYTES, number);
    call->given_size = shape->given == NOTHING ? 0 : read_array(given, shape->given, number);
    call->result_length = shape->result == NOTHING ? 0 : read_length(LENT_MOST / shape->result, number);
    if (call->function == LISTING) {
        call->order_length = read_length(LENT_ORDER / WORDS, number);
    }
    if (call_has_written(call->function)) {
        call->written_length = read_length(LENT_WRITTEN / WORDS, number);
    }
    for (i = 0; i < shape->numbers; i++) {
        call->numbers[i] = read_number(number);
    }
    while (next == ' ') {
        next = host_get();
    }
    if (next != '\n') {
        line_fault("a word too many, or no end of the line", number, 2);
    }
    return 1;
}
