/*
 * The loop of bench/harness.h.
 */
#define _POSIX_C_SOURCE 199309L /* for clock_gettime */

#include "harness.h"

#include <stdio.h>
#include <stdlib.h>
#include <string.h>
#include <time.h>

#define MOST 16384 /* records in a corpus */
#define TIME 8     /* bytes of a time, high byte first */
#define TIMED "time-"

static struct record records[MOST];

static void fail(const char *why, const char *what) {
    fprintf(stderr, "bench: %s: %s\n", why, what);
    exit(1);
}

/* Reads a corpus; how many records it has. */
static size_t read_corpus(const char *path) {
    uint8_t bytes[TIME + MESSAGE];
    size_t n = 0;
    FILE *in = fopen(path, "rb");
    if (in == NULL) {
        fail("cannot be read", path);
    }
    while (fread(bytes, sizeof bytes, 1, in) == 1) {
        if (n == MOST) {
            fail("has too many records", path);
        }
        for (int i = 0; i < TIME; i++) {
            records[n].time = records[n].time << 8 | bytes[i];
        }
        memcpy(records[n].message, bytes + TIME, MESSAGE);
        n++;
    }
    fclose(in);
    return n;
}

static action mode_of(const struct mode *modes, const char *name) {
    for (; modes->name != NULL; modes++) {
        if (strcmp(modes->name, name) == 0) {
            return modes->act;
        }
    }
    fail("no such mode", name);
    return NULL;
}

/* This is the loop that is counted. */
static void act_on(size_t from, size_t to, action act, const char *name) {
    for (size_t i = from; i < to; i++) {
        if (act(&records[i]) != 0) {
            fail("an action did not come out as meant", name);
        }
    }
}

static long long nanoseconds(void) {
    struct timespec at;
    clock_gettime(CLOCK_MONOTONIC, &at);
    return at.tv_sec * 1000000000LL + at.tv_nsec;
}

void run_bench(const struct mode *modes, const char *name, const char *corpus, action warm_up, const char *warm,
               const char *count) {
    int timed = strncmp(name, TIMED, strlen(TIMED)) == 0;
    action act = mode_of(modes, timed ? name + strlen(TIMED) : name);
    long long start;
    size_t first = strtoul(warm, NULL, 10);
    size_t end = first + strtoul(count, NULL, 10);
    if (read_corpus(corpus) < end) {
        fail("has too few records", corpus);
    }
    act_on(0, first, warm_up, "warm-up");
    start = timed ? nanoseconds() : 0;
    act_on(first, end, act, name);
    if (timed) {
        printf("%lld\n", nanoseconds() - start);
    }
}

uint32_t do_nothing(const struct record *record) {
    (void)record;
    return 0;
}
