/*
 * Reads a capture on standard input to its end and prints the listing, by a table of 256 places without a site:
 * listing [all]. It has the tracks whose position is known, and with the word all every track. ./listing builds it and
 * runs it; the program `listing` in Rattle prints the same. Nothing is printed of an input that cannot be read to its
 * end. The status is 0 if all was read and written.
 */
// gcc -std=c99 -Idist examples/c/capture.c dist/*.S -o c-listing
#include <addercoil.h>
#include <ctype.h>
#include <stdio.h>
#include <string.h>

enum { PLACES = 256 };

static uint8_t table[ADDERCOIL_TABLE_BYTES(PLACES)];

/*
 * Is this the beginning of a text, messages in hex, a line each, as receivers print them? No good block begins so: its
 * first byte is at most 23.
 */
static int is_text(const uint8_t *block, size_t length) {
    size_t digits = 0, i;
    if (length == 0 || (block[0] != '*' && block[0] != '@' && !isxdigit(block[0]))) {
        return 0;
    }
    for (i = 0; i < length && block[i] != '\n'; i++) {
        if (isxdigit(block[i])) {
            digits++;
        } else if (memchr("*@; \t\r", block[i], 6) == NULL) {
            return 0;
        }
    }
    return digits >= 14;
}

/* Feeds the input to the table, block by block; how many blocks are bad, and whether it is a text instead. */
static uint64_t feed_all(FILE *in, int *text) {
    uint8_t block[ADDERCOIL_BLOCK];
    size_t length = fread(block, 1, sizeof block, in);
    uint64_t bad[1] = {0};
    *text = is_text(block, length);
    while (length != 0) {
        addercoil_feed_block(table, sizeof table, block, length, bad[0], bad, 1);
        length = length == sizeof block ? fread(block, 1, sizeof block, in) : 0;
    }
    return bad[0];
}

/* The listing; whether it could be written. */
static int print_listing(uint64_t bad, uint32_t all) {
    static uint8_t text[ADDERCOIL_LISTING_BYTES(PLACES)];
    static uint64_t order[PLACES]; /* where the keys are sorted */
    uint64_t written[1] = {0};
    int whole;
    addercoil_listing(table, sizeof table, bad, all, order, PLACES, text, sizeof text, written, 1);
    whole = fwrite(text, 1, (size_t)written[0], stdout) == written[0];
    return fclose(stdout) == 0 && whole;
}

int main(int count, char **words) {
    int all = count == 2 && strcmp(words[1], "all") == 0, text;
    uint64_t bad;
    if (count > 2 || (count == 2 && !all)) {
        fputs("usage: listing [all]\n", stderr);
        return 2;
    }
    addercoil_set_up(table, sizeof table);
    bad = feed_all(stdin, &text);
    if (ferror(stdin)) {
        fputs("listing: the input cannot be read to its end\n", stderr);
        return 1;
    }
    if (!print_listing(bad, (uint32_t)all)) {
        fputs("listing: the output cannot be written\n", stderr);
        return 1;
    }
    if (text) {
        fputs("listing: these are lines of a receiver and no capture: reference/make-capture < LINES > CAPTURE\n",
              stderr);
    }
    return text;
}
