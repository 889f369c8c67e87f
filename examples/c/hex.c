/*
 * Reads messages in hex on standard input, one a line as *HEX; or HEX, keeps a table of 256 places and prints the
 * listing at the end: hex [STEP [ALL]]. Line k, from 0, arrives at k times STEP milliseconds, or k. The listing has
 * all tracks, or with 0 for ALL those whose position is known.
 */
// gcc -std=c99 -Idist examples/c/hex.c dist/*.S -o c-hex
#include <addercoil.h>
#include <ctype.h>
#include <errno.h>
#include <stdio.h>
#include <stdlib.h>

enum { PLACES = 256 };

static uint8_t table[ADDERCOIL_TABLE_BYTES(PLACES)];

static int digit(int c) {
    return isdigit(c) ? c - '0' : tolower(c) - 'a' + 10;
}

/*
 * The bytes in hex of the next line, at most so many, and how many there are; of a line with half a byte, the most, so
 * that it is of no message's length. Whether there was a line.
 */
static int read_line(FILE *in, uint8_t *bytes, size_t most, size_t *count) {
    size_t digits = 0;
    int c = getc(in);
    if (c == EOF) {
        return 0;
    }
    if (c == '*') {
        c = getc(in);
    }
    for (; isxdigit(c) && digits < 2 * most; digits++) {
        bytes[digits / 2] = (uint8_t)(digits % 2 == 0 ? digit(c) : bytes[digits / 2] * 16 + digit(c));
        c = getc(in);
    }
    while (c != '\n' && c != EOF) {
        c = getc(in);
    }
    *count = digits % 2 == 0 ? digits / 2 : most;
    return 1;
}

/* Each message, at its time; how many were refused. */
static unsigned long receive_all(FILE *in, uint64_t step) {
    uint8_t message[ADDERCOIL_MESSAGE + 1]; /* one byte more, so that a longer message is seen to be longer */
    size_t count;
    uint64_t time = 0;
    unsigned long refused = 0;
    while (read_line(in, message, sizeof message, &count)) {
        if (addercoil_receive(table, sizeof table, message, count, time) != ADDERCOIL_OK) {
            refused++;
        }
        time += step;
    }
    return refused;
}

/* A word that is a whole number up to so many; whether it is one. */
static int number_in(const char *word, unsigned long long most, uint64_t *number) {
    char *end;
    errno = 0;
    *number = strtoull(word, &end, 10);
    return isdigit((unsigned char)word[0]) && *end == '\0' && errno == 0 && *number <= most;
}

/* The listing; whether it could be written. */
static int print_listing(uint32_t all) {
    static uint8_t text[ADDERCOIL_LISTING_BYTES(PLACES)];
    static uint64_t order[PLACES]; /* where the keys are sorted */
    uint64_t written[1] = {0};
    addercoil_listing(table, sizeof table, 0, all, order, PLACES, text, sizeof text, written, 1);
    return fwrite(text, 1, written[0], stdout) == written[0] && fflush(stdout) == 0;
}

int main(int count, char **arguments) {
    uint64_t step = 1, all = 1;
    if (count > 3 || (count > 1 && !number_in(arguments[1], UINT64_MAX, &step)) ||
        (count > 2 && !number_in(arguments[2], 1, &all))) {
        fputs("usage: hex [STEP [ALL]], STEP a whole number of milliseconds, and 0 or 1 for ALL\n", stderr);
        return 2;
    }
    addercoil_set_up(table, sizeof table);
    fprintf(stderr, "%lu refused\n", receive_all(stdin, step));
    if (ferror(stdin)) {
        fputs("hex: the input cannot be read to its end\n", stderr);
        return 1;
    }
    if (!print_listing((uint32_t)all)) {
        fputs("hex: the output cannot be written\n", stderr);
        return 1;
    }
    return 0;
}
