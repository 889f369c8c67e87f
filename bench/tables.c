/*
 * What examples/c/fleet.c costs, by its parts: tables MODE [TABLES], with lines on standard input that have a time.
 *
 *   read     each line is read
 *   key      .. and the key of its message is asked for
 *   receive  .. and its message is received in one table, without a dealer
 *   deal     all are read first, then dealt out to so many tables, and all tables are listed
 *   alone    all are read first, then received in one table, without a dealer, and it is listed
 *
 * The last two print how many nanoseconds that took, the reading left out. bench/run-tables builds it, counts and
 * times.
 */
#define main fleet_main
#include "../examples/c/fleet.c"
#undef main

#include <time.h>

#define MOST 1100000 /* messages */

typedef uint32_t (*action)(const struct message *message);

static struct message messages[MOST];
static struct shard one;

static void fail(const char *why) {
    fprintf(stderr, "tables: %s\n", why);
    exit(1);
}

static uint32_t do_nothing(const struct message *message) {
    return message->time == 0;
}

static uint32_t ask_key(const struct message *message) {
    uint64_t key[1];
    return addercoil_key(message->bytes, ADDERCOIL_MESSAGE, key, 1);
}

static uint32_t receive_in_one(const struct message *message) {
    return receive(&one, message->bytes, message->time);
}

/* The message of the next line, if there is one. */
static int next_message(struct message *message) {
    struct line line;
    if (!read_line(stdin, &line)) {
        return 0;
    }
    if (!line.is_timed || line.count != STAMP + ADDERCOIL_MESSAGE) {
        fail("a line without a time and a message");
    }
    memcpy(message->bytes, line.bytes + STAMP, ADDERCOIL_MESSAGE);
    message->time = time_of(line.bytes);
    return 1;
}

/* This is the loop that is counted. */
static void act_on_each(action act) {
    struct message message;
    while (next_message(&message)) {
        if (act(&message) != ADDERCOIL_OK) {
            fail("a message was refused");
        }
    }
}

static size_t read_all(void) {
    size_t count = 0;
    while (count < MOST && next_message(messages + count)) {
        count++;
    }
    return count;
}

static long long nanoseconds(void) {
    struct timespec at;
    clock_gettime(CLOCK_MONOTONIC, &at);
    return at.tv_sec * 1000000000LL + at.tv_nsec;
}

/* The whole way from the first message to the listings of all tables. */
static long long time_deal(size_t count, size_t tables) {
    struct dealer dealer = {0};
    long long begun, took;
    if (start(&dealer, tables, 1) != NULL) {
        fail("the tables cannot be had");
    }
    begun = nanoseconds();
    for (size_t i = 0; i < count; i++) {
        if (deal(&dealer, messages[i].bytes, ADDERCOIL_MESSAGE, messages[i].time) != ADDERCOIL_OK) {
            fail("a message was refused");
        }
    }
    if (finish(&dealer) != NULL || dealer.answered[ADDERCOIL_OK] != count) {
        fail("not every message was taken");
    }
    took = nanoseconds() - begun;
    release(&dealer);
    return took;
}

static long long time_alone(size_t count) {
    const long long begun = nanoseconds();
    for (size_t i = 0; i < count; i++) {
        if (receive_in_one(messages + i) != ADDERCOIL_OK) {
            fail("a message was refused");
        }
    }
    one.end = messages[count - 1].time;
    list(&one);
    return nanoseconds() - begun;
}

int main(int count, char **arguments) {
    const char *mode = count > 1 ? arguments[1] : "";
    uint64_t tables = 0;
    addercoil_set_up(one.table, sizeof one.table);
    if (strcmp(mode, "read") == 0) {
        act_on_each(do_nothing);
    } else if (strcmp(mode, "key") == 0) {
        act_on_each(ask_key);
    } else if (strcmp(mode, "receive") == 0) {
        act_on_each(receive_in_one);
    } else if (strcmp(mode, "alone") == 0) {
        printf("%lld\n", time_alone(read_all()));
    } else if (strcmp(mode, "deal") == 0 && count == 3 && number_in(arguments[2], SIZE_MAX, &tables) && tables > 0) {
        printf("%lld\n", time_deal(read_all(), (size_t)tables));
    } else {
        fail("no such mode");
    }
    return 0;
}
