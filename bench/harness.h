/*
 * The loop in which all decoders are counted, so that it costs each the same and is taken off each.
 */
#ifndef BENCH_HARNESS_H
#define BENCH_HARNESS_H

#include <stdint.h>

#define MESSAGE 14

/* The site of the receiver, in degrees: as in bench/make-corpus. */
#define SITE_LATITUDE 52.0
#define SITE_LONGITUDE 4.5

struct record {
    uint64_t time; /* in milliseconds */
    uint8_t message[MESSAGE];
};

/* What is done with a record. It answers 0 if that came out as the bench means it to, and anything else if not. */
typedef uint32_t (*action)(const struct record *record);

struct mode {
    const char *name;
    action act;
};

/*
 * Reads the corpus, acts on its first `warm` records by `warm_up` and on the `count` records after them by the mode of
 * this name. Whatever the two numbers are, the whole corpus is read. Ends the program with status 1 if there is no such
 * mode, if the corpus is too short, or if an action did not answer 0. With "time-" before the mode's name it prints how
 * many nanoseconds the actions on those `count` records took.
 */
void run_bench(const struct mode *modes, const char *name, const char *corpus, action warm_up, const char *warm,
               const char *count);

/* Does nothing: what is left of a run of it is the loop. */
uint32_t do_nothing(const struct record *record);

#endif
