/*
 * Hostile calls of every kind: stress SEED CALLS EVERY. First it asks for the clock of a table of every length, and
 * works the tracks of 1,000 runs out again from their logs, which the tables must have unless they were full. Then it
 * makes so many calls, the same for the same seed and compiler: random bytes, valid messages and damaged ones, times at
 * the edges of 64 bits, tables of bad lengths, of random bytes, and full ones, result arrays of wrong lengths. After
 * each of these it looks at the guards of all that was lent, and at what must be as it was; and a whole listing must be
 * what its lines are one by one. At a fault it names the call and ends with 1. One call in EVERY is written as a line
 * of call.h, for the model to answer too.
 */
#include "call.h"
#include "host.h"
#include <addercoil.h>
#include <signal.h>
#include <stdio.h>
#include <stdlib.h>
#include <string.h>
#include <unistd.h>

/* ---- Chance, drawn one by one: never twice where the compiler chooses the order, so that all draw alike ---- */

static uint64_t state;

/* splitmix64 */
static uint64_t any(void) {
    uint64_t z = state += 0x9E3779B97F4A7C15u;
    z = (z ^ z >> 30) * 0xBF58476D1CE4E5B9u;
    z = (z ^ z >> 27) * 0x94D049BB133111EBu;
    return z ^ z >> 31;
}

static uint64_t below(uint64_t n) {
    return any() % n;
}

static uint64_t pick(const uint64_t *list, size_t length) {
    return list[below(length)];
}
#define ONE_OF(...) pick((const uint64_t[]){__VA_ARGS__}, sizeof((const uint64_t[]){__VA_ARGS__}) / sizeof(uint64_t))

static void fill(uint8_t *bytes, size_t size) {
    size_t i;
    for (i = 0; i < size; i++) {
        bytes[i] = (uint8_t)any();
    }
}

/* A number of any size: small, at an edge, or whatever. */
static uint64_t number(void) {
    uint64_t edge = (uint64_t)1 << below(64);
    switch (below(4)) {
    case 0:
        return below(8);
    case 1:
        return edge - below(3) + 1;
    case 2:
        return 0 - below(3);
    default:
        edge = any();
        return edge >> below(64);
    }
}

/* Changes a byte. */
static void damage(uint8_t *bytes, size_t size) {
    size_t at = below(size);
    bytes[at] ^= (uint8_t)any();
}

/* ---- Messages and blocks ---- */

static uint32_t remainder_of(const uint8_t *bytes, size_t size) {
    uint32_t r = 0;
    size_t i;
    int bit;
    for (i = 0; i < size; i++) {
        r ^= (uint32_t)bytes[i] << 16;
        for (bit = 0; bit < 8; bit++) {
            r = r & 0x800000 ? (r << 1 ^ 0xFFF409) & 0xFFFFFF : r << 1;
        }
    }
    return r;
}

/* Sets the last three bytes so that the remainder is 0. */
static void seal(uint8_t *bytes, size_t size) {
    uint32_t r = remainder_of(bytes, size - 3);
    bytes[size - 3] = (uint8_t)(r >> 16);
    bytes[size - 2] = (uint8_t)(r >> 8);
    bytes[size - 1] = (uint8_t)r;
}

/* One of the stations that are heard most. */
static uint64_t make_station(void) {
    return ONE_OF(3, 12);
}

/* 14 bytes: often a message of one of a few aircraft, so that tracks grow; else of anybody, damaged, or noise. */
static void make_message(uint8_t *message) {
    uint64_t kind = below(16), one = below(23), other = below(23), rare = below(16) == 0 ? below(32) : 11;
    uint64_t type = ONE_OF(19, 31, one, other, rare);
    fill(message, ADDERCOIL_MESSAGE);
    if (kind == 0) {
        return;
    }
    if (kind > 1) {
        message[0] = (uint8_t)ONE_OF(17 << 3 | 5, 17 << 3, 18 << 3, 18 << 3 | 1, 18 << 3 | 2, 18 << 3 | 2, 18 << 3 | 3,
                                     18 << 3 | 5);
    }
    if (kind > 1 && message[0] == (18 << 3 | 3)) { /* any flag, of a few stations; the rest of ME is any bits */
        message[4] = (uint8_t)((message[4] & 0xE1) | make_station() << 1);
    } else if (kind > 1) {
        message[4] = (uint8_t)(type << 3 | (type == 19 ? 1 + below(4) : below(type == 31 && below(8) != 0 ? 2 : 8)));
        if (type == 0 && below(4) == 0) { /* no altitude either */
            message[5] = 0;
            message[6] &= 15;
        }
        if (type == 31 && below(8) != 0) { /* of version 0 to 3 */
            message[9] &= 0x7F;
        }
    }
    if (kind > 2) {
        memset(message + 1, (int)(kind % 4), 3);
    }
    seal(message, ADDERCOIL_MESSAGE);
    if (kind == 3) {
        size_t at = below(ADDERCOIL_MESSAGE);
        message[at] ^= (uint8_t)(1 << below(8));
    }
}

static void put_time(uint8_t *bytes, uint64_t time) {
    int i;
    for (i = 0; i < 8; i++) {
        bytes[i] = (uint8_t)(time >> (56 - 8 * i));
    }
}

/* Records of a log, or of a block: a time and a message each, of rising times. */
static void make_records(uint8_t *records, size_t count, uint64_t time) {
    size_t i;
    for (i = 0; i < count; i++) {
        time += ONE_OF(0, 1, 400, 10001);
        put_time(records + ADDERCOIL_RECORD * i, time);
        make_message(records + ADDERCOIL_RECORD * i + 8);
    }
}

/* A block of a capture: of rising times, and now and then broken. */
static void make_block(uint8_t *block, uint64_t time) {
    size_t count = below(24);
    memset(block, 0, ADDERCOIL_BLOCK);
    block[0] = (uint8_t)count;
    make_records(block + 3, count, time);
    if (below(8) == 0) {
        damage(block, ADDERCOIL_BLOCK);
    }
    seal(block, ADDERCOIL_BLOCK);
    if (below(16) == 0) {
        damage(block, ADDERCOIL_BLOCK);
    }
}

/* ---- Tables ---- */

/* Tables that live on from call to call, small ones mostly. */
static const size_t live_places[] = {1, 2, 3, 5, 8, 16, 256, 1024};
enum { LIVE = sizeof live_places / sizeof live_places[0] };
static uint8_t live[LIVE][ADDERCOIL_TABLE_BYTES(1024)];
static uint8_t strange[LENT_MOST]; /* a table for one call only */
static uint8_t given[LENT_MOST];

static uint64_t clock_of(const uint8_t *table) {
    uint64_t clock = 0;
    int i;
    for (i = 7; i >= 0; i--) {
        clock = clock << 8 | table[i];
    }
    return clock;
}

static void put_low(uint8_t *bytes, uint64_t number, size_t size) {
    size_t i;
    for (i = 0; i < size; i++) {
        bytes[i] = (uint8_t)(number >> 8 * i);
    }
}

/* Every place held in date, by aircraft 1, 2, and so on: docs/TABLE.md has the offsets. */
static void fill_places(uint8_t *table, size_t places) {
    uint8_t *bodies = table + 16 + 4 * places;
    size_t i;
    memset(bodies, 0, 82 * places);
    for (i = 0; i < places; i++) {
        put_low(table + 16 + 4 * i, 1 << 24 | (i + 1), 4);
        memcpy(bodies + 82 * i, table, 8); /* last heard at the clock */
    }
}

/* Two places with one key, which no set-up makes. */
static void double_key(uint8_t *table, size_t places) {
    size_t from = below(places), to = below(places);
    memcpy(table + 16 + 4 * to, table + 16 + 4 * from, 4);
}

/* Lengths that no table has, or any length at all. */
static size_t bad_length(void) {
    size_t whole = ADDERCOIL_TABLE_BYTES(1 + below(6));
    return below(4) == 0 ? below(LENT_MOST / (below(16) == 0 ? 1 : 64))
                         : ONE_OF(0, 1, 8, 15, 16, 17, whole - 1, whole + 1, ADDERCOIL_TABLE_BYTES(1025), 86);
}

/* A live table, sometimes with a byte of it changed, or full; or a strange one. */
static void choose_table(struct call *call) {
    size_t which = below(24) < 22 ? below(6) : 6 + below(2);
    uint64_t kind = below(32);
    call->table = live[which];
    call->table_size = ADDERCOIL_TABLE_BYTES(live_places[which]);
    if (kind < 4) {
        call->table = strange;
        call->table_size = kind < 2 ? bad_length() : ADDERCOIL_TABLE_BYTES(1 + below(6));
        fill(strange, call->table_size);
    } else if (kind == 4) {
        size_t at = below(call->table_size);
        call->table[at] = (uint8_t)ONE_OF(0, 1, 2, 3, 255, below(256));
    } else if (kind == 5) {
        fill_places(call->table, live_places[which]);
    } else if (kind == 6) {
        double_key(call->table, live_places[which]);
    }
}

/* ---- Calls ---- */

/* Receiving comes most often, since it makes tables that are worth reading; pairs have the rarest refusal. */
static enum function choose_function(void) {
    uint64_t n = below(64);
    if (n < 22) {
        return RECEIVE;
    }
    if (n < 28) {
        return RECEIVE_STAMP;
    }
    if (n < 32) {
        return FEED_BLOCK;
    }
    return n < 38 ? PAIR : (enum function)below(FUNCTIONS);
}

/* A length that is right, or often one that is near it. */
static size_t about(size_t length) {
    return below(16) != 0 ? length : ONE_OF(0, 1, 2, length - 1, length + 1, below(200));
}

/* How many places the bytes of a table have room for, whether it is one or not. */
static size_t places_in(const struct call *call) {
    return call->table_size < 16 ? 0 : (call->table_size - 16) / 86;
}

/* About this length, and no more than can be lent. */
static size_t about_at_most(size_t length, size_t most) {
    size_t made = about(length);
    return made < most ? made : most;
}

/* The lengths of the three arrays of a listing. */
static void listing_lengths(struct call *call) {
    size_t places = places_in(call);
    call->result_length = about_at_most(ADDERCOIL_LISTING_BYTES(places), LENT_MOST);
    call->order_length = about_at_most(places, LENT_ORDER / WORDS);
    call->written_length = about_at_most(1, LENT_WRITTEN / WORDS);
}

/* The lengths of the two arrays that a merge writes. */
static void merge_lengths(struct call *call) {
    call->result_length = about_at_most(call->table_size + call->given_size, LENT_MOST);
    call->written_length = about_at_most(1, LENT_WRITTEN / WORDS);
}

static size_t result_length(enum function function) {
    switch (function) {
    case RECEIVE_STAMP:
        return about(ADDERCOIL_STAMPS);
    case SITE:
        return about(ADDERCOIL_SITE);
    case LOOK_UP:
    case REPLAY:
    case REPLAY_AT:
    case REPLAY_COARSE:
        return about(ADDERCOIL_TRACK);
    case HEADER:
    case LINE:
        return about(ADDERCOIL_LINE);
    case ENCODE_POSITION:
    case PAIR:
    case SINGLE:
    case ENCODE_POSITION_COARSE:
    case PAIR_COARSE:
    case SINGLE_COARSE:
    case DEGREES:
    case FROM_DEGREES:
        return about(ADDERCOIL_SPOT);
    case DECODE:
    case ME:
        return about(ADDERCOIL_FIELDS);
    case ENCODE:
        return about(ADDERCOIL_MESSAGE);
    default:
        return about(1);
    }
}

/* Fields of a message that was decoded, now and then with an entry of any size. */
static size_t make_fields(void) {
    uint8_t message[ADDERCOIL_MESSAGE];
    uint64_t fields[ADDERCOIL_FIELDS];
    size_t i;
    make_message(message);
    if (addercoil_decode(message, sizeof message, fields, ADDERCOIL_FIELDS) != ADDERCOIL_OK) {
        for (i = 0; i < ADDERCOIL_FIELDS; i++) {
            fields[i] = number();
        }
    } else if (below(2) == 0) {
        i = below(ADDERCOIL_FIELDS);
        fields[i] = number();
    }
    fill(given, 4096);
    memcpy(given, fields, sizeof fields);
    return about(ADDERCOIL_FIELDS) * sizeof fields[0];
}

/* A log of a few records; now and then one that is too long, or that is not of whole records. */
static size_t make_log(uint64_t time) {
    size_t count = 1 + below(40);
    make_records(given, count, time);
    if (below(64) == 0) {
        count = ADDERCOIL_RECORDS - 1 + below(3); /* what lies behind is from other calls */
    }
    return about(ADDERCOIL_RECORD * count);
}

/* ---- Checks: a capture in the place of a table, and a listing of it ---- */

/* One line more in a text, and how much then stands there. */
static size_t put_line(uint8_t *text, size_t size, const uint8_t *line) {
    size_t length = strlen((const char *)line);
    memcpy(text + size, line, length);
    return size + length;
}

/* The lines of a table one by one, as a text that has room for them, and how many bytes they are. */
static size_t make_lines(const uint8_t *table, size_t size, uint64_t bad, uint32_t all, uint8_t *text) {
    uint8_t line[ADDERCOIL_LINE];
    uint64_t key = 0;
    size_t made;
    addercoil_header(table, size, bad, all, line, sizeof line);
    made = put_line(text, 0, line);
    while (addercoil_next(table, size, (uint32_t)key, &key, 1) == ADDERCOIL_OK && key != 0) {
        addercoil_line(table, size, (uint32_t)key, all, line, sizeof line);
        made = put_line(text, made, line);
    }
    return made;
}

/* Our own listing of a capture, by the other functions. */
static size_t make_listing(const uint8_t *capture, size_t size) {
    static uint8_t table[ADDERCOIL_TABLE_BYTES(256)];
    uint64_t bad = 0;
    size_t at;
    addercoil_set_up(table, sizeof table);
    for (at = 0; at < size; at += ADDERCOIL_BLOCK) {
        size_t left = size - at;
        addercoil_feed_block(table, sizeof table, capture + at, left < ADDERCOIL_BLOCK ? left : ADDERCOIL_BLOCK, bad,
                             &bad, 1);
    }
    return make_lines(table, sizeof table, bad, 1, given);
}

/* A capture of a few blocks, now and then of any bytes. */
static void choose_capture(struct call *call) {
    size_t blocks = below(4), i;
    call->table = strange;
    call->table_size = ADDERCOIL_BLOCK * blocks + (below(4) == 0 ? below(ADDERCOIL_BLOCK) : 0);
    fill(strange, call->table_size);
    for (i = 0; i < blocks; i++) {
        make_block(strange + ADDERCOIL_BLOCK * i, 1000 * i);
    }
}

/* Its own listing, often with a byte of it changed, a digit put for another, or cut off; or any bytes. */
static size_t make_text(const struct call *call) {
    size_t size = make_listing(call->table, call->table_size), at = below(size);
    switch (below(8)) {
    case 0:
        damage(given, size);
        return size;
    case 1:
        return at;
    case 2:
        fill(given, size);
        return size;
    case 3:
    case 4:
        given[at] = (uint8_t)('0' + below(10));
        return size;
    default:
        return size;
    }
}

/* The listing of a live table, with all its tracks. */
static void choose_listing(struct call *call) {
    size_t which = below(6);
    call->table = strange;
    call->table_size = make_lines(live[which], ADDERCOIL_TABLE_BYTES(live_places[which]), below(3), 1, strange);
}

/* What a listing becomes without its tracks: its clock stays. */
static size_t without_tracks(uint8_t *text, size_t size) {
    static const char rest[] = "tracks 0 bad-blocks 0\n";
    size_t at = 0;
    while (at < size && text[at] != 't') {
        at++;
    }
    memcpy(text + at, rest, sizeof rest - 1);
    return at + sizeof rest - 1;
}

/* A listing to merge with it: mostly a header with the same clock; or the listing itself, whole, damaged or cut off. */
static size_t make_other(const struct call *call) {
    size_t size = call->table_size, at = below(size + 1);
    memcpy(given, call->table, size);
    switch (below(8)) {
    case 0:
        damage(given, size);
        return size;
    case 1:
        return at;
    case 2:
        return size;
    default:
        return without_tracks(given, size);
    }
}

static size_t make_given(enum function function, uint64_t time) {
    switch (function) {
    case RECEIVE:
    case RECEIVE_STAMP:
    case DECODE:
    case KEY:
        make_message(given);
        return about(ADDERCOIL_MESSAGE);
    case FEED_BLOCK:
        make_block(given, time);
        return about(ADDERCOIL_BLOCK);
    case ENCODE:
        return make_fields();
    case REPLAY:
    case REPLAY_AT:
    case REPLAY_COARSE:
        return make_log(time);
    default:
        return 0;
    }
}

/* A time near the clock, mostly after it; or any. */
static uint64_t make_time(uint64_t clock) {
    return below(64) == 0 ? number()
                          : clock + ONE_OF(0, 0, 1, 400, 5000, 10000, 10001, 120000, 125000, 0 - (uint64_t)1);
}

/* The stamp, then the state before it: of any value, mostly one that lets the stamp be accepted. */
static uint64_t make_stamp(int i, uint64_t time) {
    uint64_t steps = ONE_OF(0, 1, 400, 0x7FFFFFFF, 0x80000000, below(16) == 0 ? any() : 5000);
    if (below(16) == 0) {
        return number();
    }
    return i == 0 ? (time + steps) % 0x100000000 : i == 1 ? below(8) != 0 : time % 0x100000000;
}

/* The bit pattern of a figure in degrees, of a latitude or of any number of 32 bits; now and then a pattern beside it,
 * of the other sign, or any. */
static uint64_t make_figure(int i) {
    int32_t number = (int32_t)(any() >> 32);
    double figure = (i == 0 ? number / 2 : number) * 360.0 / 4294967296.0;
    uint64_t pattern;
    memcpy(&pattern, &figure, sizeof pattern);
    switch (below(16)) {
    case 0:
        return pattern + ONE_OF(1, 0 - (uint64_t)1, (uint64_t)1 << 63);
    case 1:
        return ONE_OF(0, (uint64_t)1 << 63, 0x7FFull << 52, 0xFFFull << 52, 0x7FF8ull << 48, (0x7FFull << 52) + 1);
    case 2:
        return any();
    default:
        return pattern;
    }
}

/* The key of one of a few aircraft. */
static uint32_t make_key(uint64_t kind) {
    uint64_t aa = below(4) * 0x010101, flag = below(2), station = make_station();
    return kind == ADDERCOIL_KIND_C ? ADDERCOIL_KEY_COARSE(aa, flag, station) : ADDERCOIL_KEY_OF(kind, aa);
}

/* A latitude, or a longitude, of a spot. */
static uint64_t make_spot(int i) {
    return i == 0 ? below(((uint64_t)1 << 31) + 1) - ((uint64_t)1 << 30) : any() >> 32;
}

static uint64_t make_number(enum function function, int i, uint64_t time) {
    uint64_t kind = 1 + below(ADDERCOIL_KIND_C), key = make_key(kind);
    switch (function) {
    case RECEIVE:
        return time;
    case RECEIVE_STAMP:
        return make_stamp(i, time);
    case NEXT:
    case LOOK_UP:
        return below(8) == 0 ? number() : key;
    case REPLAY:
    case REPLAY_AT:
        if (below(32) == 0) {
            return number();
        }
        if (i < 2) {
            return i == 0 ? kind : ADDERCOIL_KEY_AA(key);
        }
        return make_spot(i - 2);
    case REPLAY_COARSE:
        if (below(32) == 0) {
            return number();
        }
        return i == 0 ? ADDERCOIL_KEY_AA(key) : i == 1 ? below(2) : make_station();
    case LISTING:
    case HEADER:
    case LINE:
        if (i == 1) {
            return below(16) == 0 ? number() : below(2);
        }
        return function != LINE || below(8) == 0 ? number() : key;
    case ME:
        if (i == 0) {
            return below(8) == 0 ? number() : any() >> 8;
        }
        return below(8) == 0 ? number() : key;
    case PAIR:
        return below(32) == 0 ? number() : below(i == 4 ? 2 : 131072);
    case PAIR_COARSE:
        return below(32) == 0 ? number() : below(i == 4 ? 2 : 4096);
    case FROM_DEGREES:
        return make_figure(i);
    case DEGREES:
    case ENCODE_POSITION:
    case SINGLE:
    case ENCODE_POSITION_COARSE:
    case SINGLE_COARSE:
        if (below(32) == 0) {
            return number();
        }
        if (i < 2) {
            return make_spot(i);
        }
        return below(i == 4 || i == 5 ? 2 : function == SINGLE ? 131072 : function == SINGLE_COARSE ? 4096 : 2);
    case TABLE_BYTES:
        return below(2) == 0 ? below(1100) : number();
    default:
        return number();
    }
}

static struct call make_call(void) {
    struct call call = {.function = choose_function(), .given = given};
    const struct shape *shape = &shapes[call.function];
    uint64_t time = 0;
    int i;
    call.below = 8 * below(9);
    call.null = (int)below(2);
    if (call.function == CHECK) {
        choose_capture(&call);
    } else if (call.function == MERGE) {
        choose_listing(&call);
    } else if (shape->table != NO_TABLE) {
        choose_table(&call);
        time = make_time(call.table_size < 8 ? 0 : clock_of(call.table));
    }
    call.given_size = call.function == CHECK   ? make_text(&call)
                      : call.function == MERGE ? make_other(&call)
                                               : make_given(call.function, time);
    if (call.function == LISTING) {
        listing_lengths(&call);
    } else if (call.function == MERGE) {
        merge_lengths(&call);
    } else {
        call.result_length = shape->result == NOTHING ? 0 : result_length(call.function);
    }
    for (i = 0; i < shape->numbers; i++) {
        call.numbers[i] = make_number(call.function, i, time);
    }
    return call;
}

/* ---- Replays: a log gives what the table has, unless 6 was answered to the aircraft ---- */

enum { RUNS = 1000, RUN_RECORDS = 48, RUN_KEYS = 20 + 16 + RUN_RECORDS };

/* One run: what was received, and the table after it. */
struct run {
    uint8_t table[ADDERCOIL_TABLE_BYTES(16)];
    size_t size;
    uint8_t log[RUN_RECORDS * ADDERCOIL_RECORD];
    size_t records;
    int sited;
    int32_t latitude;
    uint32_t longitude;
    size_t keys; /* of each the number, whether it was held, and whether 6 was answered to it */
    uint32_t key[RUN_KEYS];
    int started[RUN_KEYS];
    int full[RUN_KEYS];
};

/* How often what came. */
static struct {
    unsigned long answers[16], of_kind[ADDERCOIL_KIND_C + 1], held, absent, sited, restarted, lost, full_differs;
} came;

/* Where a key stands in a run. */
static size_t key_at(struct run *run, uint32_t key) {
    size_t k;
    for (k = 0; k < run->keys && run->key[k] != key; k++) {
    }
    if (k == run->keys) {
        run->key[k] = key;
        run->started[k] = run->full[k] = 0;
        run->keys++;
    }
    return k;
}

/* A table with a site or none, and the keys of the few aircraft whose messages come most. */
static void begin_run(struct run *run) {
    uint32_t kind, aa, flag;
    run->size = ADDERCOIL_TABLE_BYTES(ONE_OF(1, 2, 3, 8, 16));
    run->records = run->keys = 0;
    run->sited = below(2) == 0;
    run->latitude = (int32_t)((int64_t)below(((uint64_t)1 << 31) + 1) - ((int64_t)1 << 30));
    run->longitude = (uint32_t)any();
    if (run->sited) {
        addercoil_set_up_at(run->table, run->size, run->latitude, run->longitude);
    } else {
        addercoil_set_up(run->table, run->size);
    }
    for (aa = 0; aa < 4; aa++) {
        for (kind = ADDERCOIL_KIND_I; kind <= ADDERCOIL_KIND_N; kind++) {
            key_at(run, ADDERCOIL_KEY_OF(kind, aa * 0x010101));
        }
        for (flag = 0; flag < 2; flag++) {
            key_at(run, ADDERCOIL_KEY_COARSE(aa * 0x010101, flag, 3));
            key_at(run, ADDERCOIL_KEY_COARSE(aa * 0x010101, flag, 12));
        }
    }
}

/* Any message at a time, into the table and behind the log. */
static void receive_in(struct run *run, uint64_t time) {
    uint8_t *record = run->log + ADDERCOIL_RECORD * run->records++, *message = record + 8;
    uint64_t fields[ADDERCOIL_FIELDS], track[ADDERCOIL_TRACK];
    uint32_t answer;
    size_t k;
    put_time(record, time);
    make_message(message);
    if (addercoil_decode(message, ADDERCOIL_MESSAGE, fields, ADDERCOIL_FIELDS) != ADDERCOIL_OK) {
        came.answers[addercoil_receive(run->table, run->size, message, ADDERCOIL_MESSAGE, time)]++;
        return;
    }
    k = key_at(run, (uint32_t)fields[ADDERCOIL_KEY]);
    addercoil_look_up(run->table, run->size, run->key[k], track, ADDERCOIL_TRACK);
    answer = addercoil_receive(run->table, run->size, message, ADDERCOIL_MESSAGE, time);
    came.answers[answer]++;
    run->full[k] |= answer == ADDERCOIL_REFUSED_FULL;
    if (answer == ADDERCOIL_OK) {
        came.restarted += run->started[k] && track[ADDERCOIL_TRACK_HELD] == 0;
        came.lost += fields[ADDERCOIL_LAYOUT] == ADDERCOIL_LAYOUT_AIRBORNE && fields[ADDERCOIL_TYPECODE] == 0;
        run->started[k] = 1;
    }
}

/* The track of a key from the log of a run. */
static uint32_t replay_key(const struct run *run, uint32_t key, uint64_t *track) {
    uint32_t kind = ADDERCOIL_KEY_KIND(key), aa = ADDERCOIL_KEY_AA(key);
    size_t length = ADDERCOIL_RECORD * run->records;
    if (kind == ADDERCOIL_KIND_C) {
        return addercoil_replay_coarse(run->log, length, aa, ADDERCOIL_KEY_FLAG(key), ADDERCOIL_KEY_STATION(key), track,
                                       ADDERCOIL_TRACK);
    }
    return run->sited
               ? addercoil_replay_at(run->log, length, kind, aa, run->latitude, run->longitude, track, ADDERCOIL_TRACK)
               : addercoil_replay(run->log, length, kind, aa, track, ADDERCOIL_TRACK);
}

/* Whether a key's track is the same both ways, or 6 was answered to it. */
static int replayed(const struct run *run, size_t k) {
    uint64_t held[ADDERCOIL_TRACK], again[ADDERCOIL_TRACK];
    if (replay_key(run, run->key[k], again) != ADDERCOIL_OK ||
        addercoil_look_up(run->table, run->size, run->key[k], held, ADDERCOIL_TRACK) != ADDERCOIL_OK) {
        return 0;
    }
    if (memcmp(held, again, sizeof held) != 0) {
        came.full_differs += run->full[k] != 0;
        return run->full[k];
    }
    came.held += held[ADDERCOIL_TRACK_HELD] != 0;
    came.of_kind[ADDERCOIL_KEY_KIND(run->key[k])] += held[ADDERCOIL_TRACK_HELD] != 0;
    came.absent += held[ADDERCOIL_TRACK_HELD] == 0;
    came.sited += run->sited && held[ADDERCOIL_TRACK_POSITION_KNOWN] != 0;
    return 1;
}

/* Every number of a received message, every kind held, TYPE 0, and every end of a track. */
static int all_came(void) {
    static const int due[] = {0, 2, 3, 4, 5, 6, 12};
    size_t i;
    for (i = 1; i < sizeof came.of_kind / sizeof came.of_kind[0]; i++) {
        if (came.of_kind[i] == 0) {
            return 0;
        }
    }
    for (i = 0; i < sizeof due / sizeof due[0]; i++) {
        if (came.answers[due[i]] == 0) {
            return 0;
        }
    }
    return came.absent && came.sited && came.restarted && came.lost && came.full_differs;
}

static int replays(void) {
    static struct run run;
    unsigned long i;
    size_t k, left;
    for (i = 0; i < RUNS; i++) {
        uint64_t time = ONE_OF(0, 0, 1000000, 0 - (uint64_t)500000);
        begin_run(&run);
        for (left = 1 + below(RUN_RECORDS); left > 0; left--) {
            uint64_t step =
                ONE_OF(0, 1, 400, 400, 5000, 10001, 60000, 120001, 124999, 125000, 0 - (uint64_t)1, 0 - (uint64_t)400);
            time = time + step < time && step < 1000000 ? time : time + step; /* not past the last time */
            receive_in(&run, time);
        }
        for (k = 0; k < run.keys; k++) {
            if (!replayed(&run, k)) {
                fprintf(stderr, "run %lu, key %08x: a replay is not what the table has\n", i, (unsigned)run.key[k]);
                return 0;
            }
        }
    }
    if (!all_came()) {
        fputs("the runs that are replayed have not all that may come\n", stderr);
        return 0;
    }
    fprintf(stderr,
            "%d runs replayed: %lu tracks as the table has them, %lu absent from both, %lu started again; "
            "%lu differ, where 6 was answered\n",
            (int)RUNS, came.held, came.absent, came.restarted, came.full_differs);
    return 1;
}

/* ---- The run ---- */

static unsigned long made;           /* calls */
static unsigned long longer[ARRAYS]; /* good calls that were tried with a longer length of an array */
static unsigned long listed;         /* whole listings that were compared with their lines */

/* A page that nobody may touch was touched. */
static void on_touch(int number) {
    char text[64];
    int size = snprintf(text, sizeof text, "call %lu: memory beyond a lent array was touched\n", made);
    (void)number;
    if (write(STDERR_FILENO, text, (size_t)size) == size) {
        _exit(1);
    }
    _exit(2);
}

/* Every length: the clock of a table that has one, or 7. */
static int every_length(void) {
    uint64_t clock[1];
    size_t length;
    for (length = 0; length <= sizeof strange; length++) {
        int whole = length >= 16 + 86 && length <= 16 + 86 * 1024 && (length - 16) % 86 == 0;
        if (addercoil_clock(strange, length, clock, 1) != (whole ? ADDERCOIL_OK : ADDERCOIL_REFUSED_PLACES)) {
            fprintf(stderr, "a table of %zu bytes\n", length);
            return 0;
        }
    }
    return 1;
}

/* What is wrong with a call once a length is said to be 2^32 more; NULL if nothing is. No system may cut the length: a
 * call that is good without it is refused. A block of another length is bad, which is counted: the table is as it was.
 */
static const char *longer_fault(const struct call *call, enum array array, int good) {
    struct call longer = *call;
    struct outcome outcome;
    int refused;
    longer.more[array] = (uint64_t)1 << 32;
    outcome = call_make(&longer);
    if (call->function == FEED_BLOCK && array == GIVEN_ARRAY) {
        refused = memcmp(outcome.table, call->table, call->table_size) == 0;
    } else {
        refused = outcome.answer == ADDERCOIL_REFUSED_LENGTH || outcome.answer == ADDERCOIL_REFUSED_PLACES ||
                  outcome.answer == ADDERCOIL_REFUSED_LOG;
    }
    return outcome.fault != NULL || !good || refused ? outcome.fault : "a length was cut";
}

/* Whether an array of a call may be said to be longer: of a check and a merge the two texts are read, however long they
 * are. */
static int has_array(const struct call *call, enum array array) {
    const struct shape *shape = &shapes[call->function];
    int lent[ARRAYS] = {shape->table != NO_TABLE, shape->given != NOTHING, shape->result != NOTHING,
                        call->function == LISTING, call_has_written(call->function)};
    int reads_texts = call->function == CHECK || call->function == MERGE;
    return lent[array] && (!reads_texts || array == RESULT_ARRAY || array == WRITTEN_ARRAY);
}

/* One call in 16 with a length of one of its arrays 2^32 more; what is wrong with it, or NULL. */
static const char *try_longer(const struct call *call) {
    enum array array = (enum array)(made / 16 % ARRAYS);
    int good;
    if (made % 16 != 0 || !has_array(call, array)) {
        return NULL;
    }
    good = call_make(call).answer == ADDERCOIL_OK;
    longer[array] += good;
    return longer_fault(call, array, good);
}

/* What is wrong with a listing that was made, or NULL: the lines one by one are the text, and behind it are zeros. */
static const char *listing_fault(const struct call *call, const struct outcome *outcome) {
    static uint8_t due[LENT_MOST];
    uint32_t all = (uint32_t)call->numbers[1];
    size_t size;
    uint64_t written;
    if (call->function != LISTING || outcome->answer != ADDERCOIL_OK) {
        return NULL;
    }
    size = make_lines(call->table, call->table_size, call->numbers[0], all, due);
    memset(due + size, 0, call->result_length - size);
    memcpy(&written, outcome->written, sizeof written);
    listed += 1;
    return written == size && memcmp(outcome->result, due, call->result_length) == 0
               ? NULL
               : "a listing is not what its lines are one by one";
}

/* One call; whether it was without a fault. */
static int one_call(unsigned long every) {
    struct call call = make_call();
    const char *fault = try_longer(&call);
    struct outcome outcome = call_make(&call);
    if (fault == NULL) {
        fault = listing_fault(&call, &outcome);
    }
    if (fault != NULL) {
        outcome.fault = fault;
    }
    if (outcome.fault != NULL || made % every == 0) {
        call_write(&call);
        outcome_write(&call, &outcome);
    }
    if (outcome.fault != NULL) {
        fprintf(stderr, "call %lu: %s\n", made, outcome.fault);
        return 0;
    }
    if (call.table_size != 0) {
        memcpy(call.table, outcome.table, call.table_size);
    }
    return 1;
}

/* Whether there was a listing, and each array was said to be longer in a good call. */
static int all_tried(void) {
    int array;
    for (array = 0; array < ARRAYS; array++) {
        if (longer[array] == 0) {
            return 0;
        }
    }
    return listed != 0;
}

int main(int count, char **words) {
    unsigned long calls = count == 4 ? strtoul(words[2], NULL, 10) : 0;
    unsigned long every = count == 4 ? strtoul(words[3], NULL, 10) : 0;
    if (every == 0) {
        fputs("stress SEED CALLS EVERY\n", stderr);
        return 2;
    }
    state = strtoull(words[1], NULL, 10);
    signal(SIGSEGV, on_touch);
    signal(SIGBUS, on_touch);
    call_open();
    if (!every_length() || !replays()) {
        return 1;
    }
    for (made = 0; made < calls; made++) {
        if (!one_call(every)) {
            host_end(1);
        }
    }
    fprintf(stderr, "%lu whole listings: each is what its lines are one by one\n", listed);
    fprintf(stderr,
            "%lu, %lu, %lu, %lu and %lu good calls with 2^32 more for a length, of a table, what is given, a result, "
            "order and written: refused\n",
            longer[TABLE_ARRAY], longer[GIVEN_ARRAY], longer[RESULT_ARRAY], longer[ORDER_ARRAY], longer[WRITTEN_ARRAY]);
    host_end(all_tried() ? 0 : 1);
    return 0;
}
