/*
 * Addercoil's side of the bench: measure MODE CORPUS WARM COUNT PLACES. bench/run builds it and counts it.
 *
 * The first WARM records of the corpus are received, then the mode is done with the COUNT records after them:
 *   empty      nothing: the loop itself
 *   decode     each is decoded
 *   receive    each is received
 *   damaged    each is received, and must be refused since its parity is wrong
 *   flood      each is received, and must be refused since every place is held
 *   listing    for each the whole table is listed, by one call
 *   positioned the same, where not all tracks are asked for
 *   walked     the same as listing, by a call for each key and for each line; there must be one for each place
 *   positions  each is received, and what came of it is printed. bench/run looks at it, and does not count it.
 *   shown      as listing, and the last one is printed: likewise
 *   shown-positioned  as positioned: likewise
 */
#include "harness.h"

#include <addercoil.h>
#include <stdio.h>
#include <stdlib.h>
#include <string.h>

#define MOST_PLACES 1024
#define TURN 4294967296.0 /* a turn of 360 degrees */

static uint8_t table[ADDERCOIL_TABLE_BYTES(MOST_PLACES)];
static uint8_t text[ADDERCOIL_LISTING_BYTES(MOST_PLACES)]; /* the last listing */
static uint64_t written[1];                                /* .. and how many bytes it has */
static size_t places;
static size_t length; /* of the part of the table that is used */
static unsigned long position_messages, positions_given;

static uint32_t decode(const struct record *record) {
    static uint64_t fields[ADDERCOIL_FIELDS];
    return addercoil_decode(record->message, MESSAGE, fields, ADDERCOIL_FIELDS);
}

static uint32_t receive(const struct record *record) {
    return addercoil_receive(table, length, record->message, MESSAGE, record->time);
}

static uint32_t damaged(const struct record *record) {
    return receive(record) != ADDERCOIL_REFUSED_PARITY;
}

static uint32_t flood(const struct record *record) {
    return receive(record) != ADDERCOIL_REFUSED_FULL;
}

static uint32_t list(uint32_t all) {
    static uint64_t order[MOST_PLACES];
    return addercoil_listing(table, length, 0, all, order, places, text, ADDERCOIL_LISTING_BYTES(places), written, 1);
}

static uint32_t listing(const struct record *record) {
    (void)record;
    return list(1);
}

static uint32_t positioned(const struct record *record) {
    (void)record;
    return list(0);
}

static uint32_t walked(const struct record *record) {
    uint8_t line[ADDERCOIL_LINE];
    uint64_t key[1] = {0};
    size_t lines = 0;
    (void)record;
    addercoil_header(table, length, 0, 1, line, sizeof line);
    while (addercoil_next(table, length, (uint32_t)key[0], key, 1) == ADDERCOIL_OK && key[0] != 0) {
        addercoil_line(table, length, (uint32_t)key[0], 1, line, sizeof line);
        lines += line[0] == 'I';
    }
    return lines != places;
}

/* Receives, and notes whether a message that says a position gave one. */
static uint32_t note_position(const struct record *record) {
    uint64_t fields[ADDERCOIL_FIELDS], track[ADDERCOIL_TRACK];
    uint32_t number = receive(record);
    addercoil_decode(record->message, MESSAGE, fields, ADDERCOIL_FIELDS);
    addercoil_look_up(table, length, (uint32_t)fields[ADDERCOIL_KEY], track, ADDERCOIL_TRACK);
    if (fields[ADDERCOIL_LAYOUT] == ADDERCOIL_LAYOUT_SURFACE || fields[ADDERCOIL_LAYOUT] == ADDERCOIL_LAYOUT_AIRBORNE) {
        position_messages++;
        positions_given +=
            track[ADDERCOIL_TRACK_POSITION_KNOWN] && track[ADDERCOIL_TRACK_POSITION_TIME] == record->time;
    }
    return number;
}

/* The bytes held, the share of positions, then address, latitude and longitude of each aircraft that has a position. */
static void print_positions(void) {
    uint64_t key[1] = {0}, track[ADDERCOIL_TRACK];
    printf("%zu %lu %lu\n", length, positions_given, position_messages);
    while (addercoil_next(table, length, (uint32_t)key[0], key, 1) == ADDERCOIL_OK && key[0] != 0) {
        addercoil_look_up(table, length, (uint32_t)key[0], track, ADDERCOIL_TRACK);
        if (track[ADDERCOIL_TRACK_POSITION_KNOWN]) {
            double latitude = (double)(int64_t)track[ADDERCOIL_TRACK_LATITUDE] * 360 / TURN;
            double longitude = (double)track[ADDERCOIL_TRACK_LONGITUDE] * 360 / TURN;
            printf("%06X %.6f %.6f\n", (unsigned)key[0] & 0xFFFFFF, latitude, longitude);
        }
    }
}

int main(int count, char **arguments) {
    static const struct mode modes[] = {{"empty", do_nothing},
                                        {"decode", decode},
                                        {"receive", receive},
                                        {"damaged", damaged},
                                        {"flood", flood},
                                        {"listing", listing},
                                        {"positioned", positioned},
                                        {"walked", walked},
                                        {"positions", note_position},
                                        {"shown", listing},
                                        {"shown-positioned", positioned},
                                        {NULL, NULL}};
    if (count != 6) {
        fprintf(stderr, "measure MODE CORPUS WARM COUNT PLACES\n");
        return 2;
    }
    places = strtoul(arguments[5], NULL, 10);
    length = addercoil_table_bytes(places);
    if (addercoil_set_up_at(table, length, (int32_t)(SITE_LATITUDE / 360 * TURN),
                            (uint32_t)(SITE_LONGITUDE / 360 * TURN)) != ADDERCOIL_OK) {
        fprintf(stderr, "measure: not a number of places: %s\n", arguments[5]);
        return 2;
    }
    run_bench(modes, arguments[1], arguments[2], receive, arguments[3], arguments[4]);
    if (strcmp(arguments[1], "positions") == 0) {
        print_positions();
    } else if (strncmp(arguments[1], "shown", strlen("shown")) == 0) {
        fwrite(text, 1, written[0], stdout);
    }
    return 0;
}
