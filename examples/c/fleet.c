/*
 * More aircraft than one table follows: fleet TABLES [STEP [ALL]]. It reads messages in hex on standard input, and
 * deals them out to several tables of 1,024 places. Each table has a thread of its own. At the end it prints one
 * listing, which is the same for every number of tables.
 *
 * A line is *HEX; or HEX. Line k, from 0, arrives at k times STEP milliseconds, or at k, modulo 2^64. Or a line is
 * @TTTTTTTTTTTTHEX; and arrives at its own time: the twelve digits are those of the 12 MHz counter of one receiver.
 * White space around these does no harm. A line with something else in it is refused with 1.
 *
 * The listing has all tracks. With 0 for ALL it has those whose position is known. What came of the messages is said on
 * standard error. If a table was full for one of them, the listing may differ from that of one larger table. That is
 * said, and the status is 1.
 *
 * This program is not proved. What it builds on is proved in c_fleet, of the calls of C. Each aircraft is told and
 * shown what one table would tell and show, if no table was full for it: `fleet_is_one`. For more than 1,024 aircraft
 * the single table has a place for each of them: `roomy_fleet`. The tables list what that table would list:
 * `fleet_prints`, `rows_add_up`. Merged one after the other, their listings are its listing, byte for byte:
 * `merged_is_one`. A comment that begins with Premise is before each line that keeps a premise of these.
 */
// gcc -std=c99 -pthread -Idist examples/c/fleet.c dist/*.S -o fleet
#define _POSIX_C_SOURCE 200112L
#include <addercoil.h>
#include <ctype.h>
#include <errno.h>
#include <inttypes.h>
#include <pthread.h>
#include <stdio.h>
#include <stdlib.h>
#include <string.h>

enum {
    PLACES = 1024, /* of each table: as many as there can be */
    BATCH = 1024,  /* messages that are handed over at once, so that a thread is seldom woken */
    STAMP = 6,     /* bytes of a receiver's time */
    TICKS = 12000  /* of its counter, in a millisecond */
};

/* A line of the input: its bytes in hex, and whether they begin with a time. */
struct line {
    uint8_t bytes[STAMP + ADDERCOIL_MESSAGE + 1]; /* one byte more, so that a longer message is seen to be longer */
    size_t count;
    int is_timed;
};

struct message {
    uint8_t bytes[ADDERCOIL_MESSAGE];
    uint64_t time;
};

struct batch {
    struct message messages[BATCH];
    size_t count;
};

struct listing {
    uint8_t *text;
    size_t length;
};

/*
 * A table, its thread, and the queue between that and the dealer: two batches, one of which the dealer fills while the
 * thread works on the other. Each thread has a table of its own: one caller at a time for one table.
 */
struct shard {
    uint8_t table[ADDERCOIL_TABLE_BYTES(PLACES)];
    uint64_t order[PLACES];               /* where the keys are sorted for the listing */
    uint64_t answered[ADDERCOIL_NUMBERS]; /* how many messages got each number */
    struct listing listing;
    const char *fault; /* why there is no listing, or NULL */
    uint32_t all;
    pthread_t thread;
    struct batch batches[2];
    struct batch *filling;             /* the dealer's alone */
    int is_running;                    /* the dealer's alone: whether there is a thread to wait for */
    pthread_mutex_t lock;              /* for all below */
    pthread_cond_t is_handed, is_back; /* for the thread, and for the dealer, to wait for */
    struct batch *handed;              /* what the thread works on, or NULL */
    int is_closed;                     /* whether no more will be handed over */
    uint64_t end;                      /* then the time of the tick */
};

/* The dealer: the tables, and one clock for all of them. */
struct dealer {
    struct shard *shards;
    size_t tables;
    uint64_t clock;                       /* the latest time of the stream */
    uint64_t answered[ADDERCOIL_NUMBERS]; /* how many messages got each number here, and went to no table */
};

/* ---- The input ---- */

static int digit(int c) {
    return isdigit(c) ? c - '0' : tolower(c) - 'a' + 10;
}

/* The rest of a line, from c on: whether it is a ; or nothing, and then white space alone. */
static int read_rest(FILE *in, int c) {
    int is_clean = 1;
    if (c == ';') {
        c = getc_unlocked(in);
    }
    for (; c != '\n' && c != EOF; c = getc_unlocked(in)) {
        is_clean = is_clean && isspace(c);
    }
    return is_clean;
}

/*
 * Reads the next line; whether there was one. A line with half a byte counts as too long, and so does one with
 * something else in it. Nobody else reads the input, so it need not be locked.
 */
static int read_line(FILE *in, struct line *line) {
    size_t digits = 0;
    int c = getc_unlocked(in);
    if (c == EOF) {
        return 0;
    }
    while (c == ' ' || c == '\t') {
        c = getc_unlocked(in);
    }
    line->is_timed = c == '@';
    if (c == '*' || c == '@') {
        c = getc_unlocked(in);
    }
    for (; isxdigit(c) && digits < 2 * sizeof line->bytes; digits++) {
        uint8_t *byte = line->bytes + digits / 2;
        *byte = (uint8_t)(digits % 2 == 0 ? digit(c) : *byte * 16 + digit(c));
        c = getc_unlocked(in);
    }
    line->count = read_rest(in, c) && digits % 2 == 0 ? digits / 2 : sizeof line->bytes;
    return 1;
}

/*
 * Premise: times are dealt out and not a receiver's stamps, so that all tables have one time. The counter has 48 bits.
 * It begins again after 271 days, and when the receiver starts anew: then all that follows is late. Two receivers have
 * two counters: make one time of them first.
 */
static uint64_t time_of(const uint8_t *stamp) {
    uint64_t counter = 0;
    for (int i = 0; i < STAMP; i++) {
        counter = counter << 8 | stamp[i];
    }
    return counter / TICKS;
}

/* ---- The queue of a table: a full one makes the dealer wait, and an empty one the table's thread ---- */

/* By the dealer: the thread gets the batch that is filled, as soon as it is through with the last one. */
static void hand_over(struct shard *shard) {
    struct batch *other = shard->filling == shard->batches ? shard->batches + 1 : shard->batches;
    pthread_mutex_lock(&shard->lock);
    while (shard->handed != NULL) {
        pthread_cond_wait(&shard->is_back, &shard->lock);
    }
    shard->handed = shard->filling;
    pthread_cond_signal(&shard->is_handed);
    pthread_mutex_unlock(&shard->lock);
    shard->filling = other;
    other->count = 0;
}

/* By the dealer: the last batch, and the time of the tick. */
static void close_queue(struct shard *shard, uint64_t end) {
    /* Premise `skip`: no message is left out, not even the last ones */
    hand_over(shard);
    pthread_mutex_lock(&shard->lock);
    shard->is_closed = 1;
    shard->end = end;
    pthread_cond_signal(&shard->is_handed);
    pthread_mutex_unlock(&shard->lock);
}

/* By the thread: the next batch, or NULL if there are no more. */
static const struct batch *take(struct shard *shard) {
    const struct batch *batch;
    pthread_mutex_lock(&shard->lock);
    while (shard->handed == NULL && !shard->is_closed) {
        pthread_cond_wait(&shard->is_handed, &shard->lock);
    }
    batch = shard->handed;
    pthread_mutex_unlock(&shard->lock);
    return batch;
}

/* By the thread: it is through with the batch. */
static void give_back(struct shard *shard) {
    pthread_mutex_lock(&shard->lock);
    shard->handed = NULL;
    pthread_cond_signal(&shard->is_back);
    pthread_mutex_unlock(&shard->lock);
}

/* ---- A table, by its thread ---- */

static uint32_t receive(struct shard *shard, const uint8_t *message, uint64_t time) {
    return addercoil_receive(shard->table, sizeof shard->table, message, ADDERCOIL_MESSAGE, time);
}

/* Premise `handed`: messages are received in the order of the stream. A batch has them so, and so the batches come. */
static void receive_batch(struct shard *shard, const struct batch *batch) {
    for (size_t i = 0; i < batch->count; i++) {
        shard->answered[receive(shard, batch->messages[i].bytes, batch->messages[i].time)]++;
    }
}

/* The listing of the table, at the dealer's clock. */
static void list(struct shard *shard) {
    static const uint8_t nothing[ADDERCOIL_MESSAGE] = {0};
    const size_t most = ADDERCOIL_LISTING_BYTES(PLACES);
    uint64_t written[1] = {0};
    /*
     * Premise `Tick`: before the table is read, 14 zero bytes at the dealer's clock. They are nobody's message. The
     * time is read without the lock: the dealer wrote it before the thread saw the queue closed, and writes it no more.
     */
    if (receive(shard, nothing, shard->end) != ADDERCOIL_REFUSED_FORMAT) {
        shard->fault = "a table does not take the tick";
        return;
    }
    shard->listing.text = malloc(most);
    if (shard->listing.text == NULL) {
        shard->fault = "there is no memory for the listing of a table";
    } else if (addercoil_listing(shard->table, sizeof shard->table, 0, shard->all, shard->order, PLACES,
                                 shard->listing.text, most, written, 1) != ADDERCOIL_OK) {
        shard->fault = "a table cannot be listed";
    }
    shard->listing.length = written[0];
}

static void *run_shard(void *argument) {
    struct shard *shard = argument;
    const struct batch *batch;
    while ((batch = take(shard)) != NULL) {
        receive_batch(shard, batch);
        give_back(shard);
    }
    list(shard);
    return NULL;
}

/* The thread of a table, and what it waits for; whether they can be had. If not, nothing is left of them. */
static int start_thread(struct shard *shard) {
    if (pthread_mutex_init(&shard->lock, NULL) != 0) {
        return 0;
    }
    if (pthread_cond_init(&shard->is_handed, NULL) == 0) {
        if (pthread_cond_init(&shard->is_back, NULL) == 0) {
            if (pthread_create(&shard->thread, NULL, run_shard, shard) == 0) {
                return 1;
            }
            pthread_cond_destroy(&shard->is_back);
        }
        pthread_cond_destroy(&shard->is_handed);
    }
    pthread_mutex_destroy(&shard->lock);
    return 0;
}

/* An empty table and its thread. Why there is none, or NULL. */
static const char *start_shard(struct shard *shard, uint32_t all) {
    shard->all = all;
    shard->filling = shard->batches;
    /* Premise: all tables have one site, here none */
    if (addercoil_set_up(shard->table, sizeof shard->table) != ADDERCOIL_OK) {
        return "a table cannot be set up";
    }
    shard->is_running = start_thread(shard);
    return shard->is_running ? NULL : "there is no thread for each table: take fewer";
}

/* ---- The dealer ---- */

/* To the table of its key, as the next of its messages. */
static void put(struct dealer *dealer, uint64_t key, const uint8_t *message, uint64_t time) {
    /* Premise `which`: the table is a function of the key, and one of those that there are */
    struct shard *shard = dealer->shards + key % dealer->tables;
    struct message *next = shard->filling->messages + shard->filling->count++;
    memcpy(next->bytes, message, ADDERCOIL_MESSAGE);
    next->time = time;
    if (shard->filling->count == BATCH) {
        hand_over(shard);
    }
}

/* What is done with a message of any bytes: the number by which it is refused here, or 0 if it goes to a table. */
static uint32_t deal(struct dealer *dealer, const uint8_t *message, size_t count, uint64_t time) {
    uint64_t key[1];
    uint32_t number;
    /* Premise: a call of the stream has 14 bytes. A message of another length does not move the clock */
    if (count != ADDERCOIL_MESSAGE) {
        return ADDERCOIL_REFUSED_LENGTH;
    }
    /* Premise `hand`: nothing is handed over that is late by the dealer's clock. A table's own clock may be behind */
    if (time < dealer->clock) {
        return ADDERCOIL_REFUSED_LATE;
    }
    /* Premise `ticked`: every call that is not late moves the clock, a damaged one too */
    dealer->clock = time;
    number = addercoil_key(message, count, key, 1);
    /* Premise `skip`: a message in time is left out only if it has no key, and so is for no table */
    if (number == ADDERCOIL_OK) {
        put(dealer, key[0], message, time);
    }
    return number;
}

/* Deals every line out. */
static void deal_all(struct dealer *dealer, FILE *in, uint64_t step) {
    struct line line = {{0}, 0, 0};
    for (uint64_t time = 0; read_line(in, &line); time += step) {
        const size_t before = !line.is_timed ? 0 : line.count < STAMP ? line.count : STAMP;
        const uint64_t arrived = line.is_timed ? time_of(line.bytes) : time;
        const uint32_t number = deal(dealer, line.bytes + before, line.count - before, arrived);
        if (number != ADDERCOIL_OK) {
            dealer->answered[number]++;
        }
    }
}

/* A thread for each table. Why one cannot be had, or NULL. */
static const char *start(struct dealer *dealer, size_t tables, uint32_t all) {
    const char *fault = NULL;
    dealer->shards = calloc(tables, sizeof *dealer->shards);
    if (dealer->shards == NULL) {
        return "there is no memory for so many tables: take fewer";
    }
    dealer->tables = tables;
    for (size_t i = 0; i < tables && fault == NULL; i++) {
        fault = start_shard(dealer->shards + i, all);
    }
    return fault;
}

/* Waits for the end of a thread, and adds up what its messages got. What went wrong, or NULL. */
static const char *join(struct shard *shard, uint64_t *answered) {
    if (pthread_join(shard->thread, NULL) != 0) {
        return "a thread cannot be waited for";
    }
    shard->is_running = 0;
    pthread_cond_destroy(&shard->is_back);
    pthread_cond_destroy(&shard->is_handed);
    pthread_mutex_destroy(&shard->lock);
    for (int number = 0; number < ADDERCOIL_NUMBERS; number++) {
        answered[number] += shard->answered[number];
    }
    return shard->fault;
}

/* Ends all threads: then each table has its listing, and the dealer every number. What went wrong first, or NULL. */
static const char *finish(struct dealer *dealer) {
    const char *fault = NULL, *found;
    for (size_t i = 0; i < dealer->tables; i++) {
        if (dealer->shards[i].is_running) {
            /* Premise `tick`: the tick is not ahead of the dealer's clock */
            close_queue(dealer->shards + i, dealer->clock);
        }
    }
    for (size_t i = 0; i < dealer->tables; i++) {
        found = dealer->shards[i].is_running ? join(dealer->shards + i, dealer->answered) : NULL;
        fault = fault != NULL ? fault : found;
    }
    return fault;
}

/* Frees all, after finish. A thread that could not be waited for may still use the tables: then they stay. */
static void release(struct dealer *dealer) {
    size_t running = 0;
    for (size_t i = 0; i < dealer->tables; i++) {
        if (dealer->shards[i].is_running) {
            running++;
        } else {
            free(dealer->shards[i].listing.text);
        }
    }
    if (running == 0) {
        free(dealer->shards);
    }
}

/* ---- One listing ---- */

/* Two listings as one, in the place of the first. Why there is none, or NULL. */
static const char *merge_two(struct listing *one, struct listing *other) {
    const size_t most = one->length + other->length;
    uint8_t *text = malloc(most);
    uint64_t written[1];
    if (text == NULL) {
        return "there is no memory for the listing";
    }
    if (addercoil_merge(one->text, one->length, other->text, other->length, text, most, written, 1) != ADDERCOIL_OK) {
        free(text);
        return "two listings are not of one clock, or have a key in common";
    }
    free(one->text);
    free(other->text);
    *one = (struct listing){text, written[0]};
    *other = (struct listing){NULL, 0};
    return NULL;
}

/*
 * Premise `Merged`: the listings of all tables are merged one after the other, as in `merged_is_one`. The first table
 * then has the one listing. Why there is none, or NULL.
 */
static const char *merge_all(struct shard *shards, size_t tables) {
    const char *fault = NULL;
    for (size_t i = 1; i < tables && fault == NULL; i++) {
        fault = merge_two(&shards[0].listing, &shards[i].listing);
    }
    return fault;
}

static const char *print(const struct listing *listing) {
    const int is_written = fwrite(listing->text, 1, listing->length, stdout) == listing->length && fflush(stdout) == 0;
    return is_written ? NULL : "the output cannot be written";
}

static void say_counts(const uint64_t *answered) {
    fprintf(stderr, "%" PRIu64 " taken", answered[ADDERCOIL_OK]);
    for (int number = 1; number < ADDERCOIL_NUMBERS; number++) {
        if (answered[number] > 0) {
            fprintf(stderr, ", %" PRIu64 " refused with %d", answered[number], number);
        }
    }
    fputs("\n", stderr);
}

/* ---- The program ---- */

/* All of it. What went wrong, or NULL. */
static const char *run(struct dealer *dealer, size_t tables, uint64_t step, uint32_t all) {
    const char *fault = start(dealer, tables, all);
    if (fault != NULL) {
        finish(dealer); /* the threads that there are */
        return fault;
    }
    deal_all(dealer, stdin, step);
    fault = finish(dealer);
    say_counts(dealer->answered);
    if (fault == NULL && ferror(stdin)) {
        fault = "the input cannot be read to its end";
    }
    fault = fault != NULL ? fault : merge_all(dealer->shards, tables);
    fault = fault != NULL ? fault : print(&dealer->shards[0].listing);
    /* Premise `room`: a table has a place for each key that goes to it. If one had none, messages got 6 */
    if (fault == NULL && dealer->answered[ADDERCOIL_REFUSED_FULL] > 0) {
        fault = "a table was full, so that aircraft, or what they said, may be missing: take more tables";
    }
    return fault;
}

/* A word that is a whole number up to so many; whether it is one. */
static int number_in(const char *word, unsigned long long most, uint64_t *number) {
    char *end;
    errno = 0;
    *number = strtoull(word, &end, 10);
    return isdigit((unsigned char)word[0]) && *end == '\0' && errno == 0 && *number <= most;
}

int main(int count, char **arguments) {
    /* Premise `Dealt`: the stream's clock begins at 0, as those of the tables do. A static struct is all zero */
    static struct dealer dealer;
    uint64_t tables = 0, step = 1, all = 1;
    const char *fault;
    if (count < 2 || count > 4 || !number_in(arguments[1], SIZE_MAX, &tables) || tables == 0 ||
        (count > 2 && !number_in(arguments[2], UINT64_MAX, &step)) ||
        (count > 3 && !number_in(arguments[3], 1, &all))) {
        fputs("usage: fleet TABLES [STEP [ALL]], 1 table or more, STEP in milliseconds, and 0 or 1 for ALL\n", stderr);
        return 2;
    }
    fault = run(&dealer, (size_t)tables, step, (uint32_t)all);
    release(&dealer);
    if (fault != NULL) {
        fprintf(stderr, "fleet: %s\n", fault);
        return 1;
    }
    return 0;
}
