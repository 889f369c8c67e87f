/*
 * Takes messages in hex, one a line as *HEX;, each 100 ms after the one before, into a table of 64 aircraft, and prints
 * how many were refused and the listing of all: minute < samples/minute.hex. It needs no system: board/board.c.
 */
#include "host.h"
#include <addercoil.h>

static uint8_t table[ADDERCOIL_TABLE_BYTES(64)];

static int digit(int c) {
    return c >= '0' && c <= '9'   ? c - '0'
           : c >= 'A' && c <= 'F' ? c - 'A' + 10
           : c >= 'a' && c <= 'f' ? c - 'a' + 10
                                  : -1;
}

/* The bytes of the next line, and one more of a longer line; how many there are, or -1. */
static int read_message(uint8_t *message) {
    int c = host_get(), digits = 0;
    if (c < 0) {
        return -1;
    }
    for (; c >= 0 && c != '\n'; c = host_get()) {
        if (digit(c) >= 0 && digits < 2 * (ADDERCOIL_MESSAGE + 1)) {
            message[digits / 2] = (uint8_t)(digits % 2 == 0 ? digit(c) : message[digits / 2] * 16 + digit(c));
            digits++;
        }
    }
    return (digits + 1) / 2;
}

static void put_text(const uint8_t *text) {
    while (*text != '\0') {
        host_put(*text++);
    }
}

static void put_refused(unsigned long refused) {
    if (refused >= 10) {
        put_refused(refused / 10);
    }
    host_put((int)('0' + refused % 10));
}

int main(void) {
    uint8_t message[ADDERCOIL_MESSAGE + 1], text[ADDERCOIL_LINE];
    uint64_t time = 0, key[1] = {0};
    unsigned long refused = 0;
    int length;
    addercoil_set_up(table, sizeof table);
    for (; (length = read_message(message)) >= 0; time += 100) {
        refused += addercoil_receive(table, sizeof table, message, (size_t)length, time) != ADDERCOIL_OK;
    }
    put_refused(refused);
    put_text((const uint8_t *)" refused\n");
    addercoil_header(table, sizeof table, 0, 1, text, sizeof text);
    put_text(text);
    while (addercoil_next(table, sizeof table, (uint32_t)key[0], key, 1) == ADDERCOIL_OK && key[0] != 0) {
        addercoil_line(table, sizeof table, (uint32_t)key[0], 1, text, sizeof text);
        put_text(text);
    }
    host_end(0);
    return 0;
}
