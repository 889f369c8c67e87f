/*
 * readsb's side of the bench: readsb MODE CORPUS WARM COUNT. bench/run builds it with that decoder's own sources, which
 * bench/fetch-peer fetches, and counts its instructions. The modes empty, decode, receive, damaged and positions
 * are those of bench/measure.c. Its listing is its JSON of all aircraft, made and thrown away; shown prints it, for
 * bench/run to look at.
 *
 * The decoder is set up as its main function does for `--lat --lon --quiet --no-fix`: the site is known, nothing is
 * printed, no bit is mended, there is no network, and no trace of where an aircraft was is kept.
 */
#include "harness.h"

#include <readsb.h>

#define TICKS 12000 /* of a receiver's clock of 12 MHz in a millisecond */

struct _Modes Modes; /* which its main file has */

/* Its main file has this too. It is called where memory cannot be had. */
void setExit(int status) {
    fprintf(stderr, "readsb: exit %d\n", status);
    exit(1);
}

static int64_t now; /* the time of the message in hand */

/* Its JSON asks for the time of day. The linker gives it this function for mstime, and so the message's time. */
int64_t __wrap_mstime(void);

int64_t __wrap_mstime(void) {
    return now;
}

static struct modesMessage message;

/* As its callers do, with a receiver's clock: a message without one is taken for another sort. */
static uint32_t decode(const struct record *record) {
    memset(&message, 0, sizeof message);
    memcpy(message.msg, record->message, MESSAGE);
    message.timestamp = (int64_t)record->time * TICKS;
    message.sysTimestamp = (int64_t)record->time;
    return (uint32_t)decodeModesMessage(&message);
}

static uint32_t receive(const struct record *record) {
    uint32_t answer = decode(record);
    now = (int64_t)record->time;
    if (answer == 0) {
        trackUpdateFromMessage(&message);
    }
    return answer;
}

/* A damaged message is refused when it is decoded, and goes no further. */
static uint32_t damaged(const struct record *record) {
    return receive(record) == 0;
}

static uint32_t list(FILE *out) {
    struct char_buffer text = generateAircraftJson(0);
    uint32_t empty = text.len == 0;
    if (out != NULL) {
        fwrite(text.buffer, 1, text.len, out);
    }
    free(text.buffer);
    return empty;
}

static uint32_t listing(const struct record *record) {
    (void)record;
    return list(NULL);
}

static uint32_t shown(const struct record *record) {
    (void)record;
    return list(stdout);
}

/*
 * Its thread of upkeep lets the table in which an address is looked up first grow with the aircraft, once a second and
 * to twice its size at most. Here it does so at once; then each aircraft is asked for, so that all are in it.
 */
static void settle(void) {
    for (int i = 0; i < AIRCRAFT_HASH_BITS; i++) {
        quickInit();
    }
    for (int i = 0; i < Modes.aircraftActive.len; i++) {
        aircraftGet(Modes.aircraftActive.list[i]->addr);
    }
}

static size_t to_warm; /* records of the warm-up that are still to come */

static uint32_t warm_up(const struct record *record) {
    uint32_t answer = receive(record);
    to_warm--;
    if (to_warm == 0) {
        settle();
    }
    return answer;
}

/* Did it refuse the last position that an aircraft said? It notes when, of one that it holds for implausible. */
static bool has_refused(const struct aircraft *a) {
    return a->disc_cache[a->disc_cache_index].ts > a->seenPosReliable;
}

/*
 * The bytes held, the share of positions, then address, latitude and longitude of each aircraft that has a position
 * which it would show, and the word refused if it did not believe the last.
 */
static void print_positions(void) {
    const struct stats *stats = &Modes.stats_current;
    unsigned long given = stats->cpr_global_ok + stats->cpr_local_ok;
    unsigned long bytes = sizeof(struct aircraft) * (unsigned long)Modes.aircraftActive.len;
    printf("%lu %lu %u\n", bytes, given, stats->cpr_surface + stats->cpr_airborne);
    for (int i = 0; i < Modes.aircraftActive.len; i++) {
        const struct aircraft *a = Modes.aircraftActive.list[i];
        if (trackDataValid(&a->pos_reliable_valid)) {
            double longitude = a->lonReliable < 0 ? a->lonReliable + 360 : a->lonReliable;
            const char *word = has_refused(a) ? " refused" : "";
            printf("%06X %.6f %.6f%s\n", a->addr & 0xFFFFFF, a->latReliable, longitude, word);
        }
    }
}

/* Its defaults where they are not 0, as far as a message meets them. */
static void set_defaults(void) {
    Modes.quiet = 1;
    Modes.check_crc = 1;
    Modes.position_persistence = 4;
    Modes.json_reliable = 1; /* where the site is known: one good pair, and a position is shown */
    Modes.net_output_beast_reduce_interval = 250;
    Modes.beast_reduce_filter_distance = -1;
    Modes.beast_reduce_filter_altitude = -1;
    Modes.messageRateMult = 1;
    Modes.trackExpireJaero = TRACK_EXPIRE_JAERO;
    Modes.cpr_focus = BADDR;
    Modes.trace_focus = BADDR;
    Modes.leg_focus = BADDR;
    Modes.show_only = BADDR;
}

static void set_up(void) {
    set_defaults();
    Modes.fUserLat = SITE_LATITUDE;
    Modes.fUserLon = SITE_LONGITUDE;
    Modes.userLocationValid = 1;
    Modes.userLocationRef = 1;
    Modes.maxRange = 1852 * 450; /* its default, 450 nautical miles */
    Modes.acHashBits = AIRCRAFT_HASH_BITS;
    Modes.acBuckets = 1 << AIRCRAFT_HASH_BITS;
    Modes.aircraft = cmCalloc((size_t)Modes.acBuckets * sizeof(struct aircraft *));
    pthread_mutex_init(&Modes.aircraftBackMutex, NULL);
    ca_init(&Modes.aircraftActive);
    geomag_init();
    modesChecksumInit(0);
    icaoFilterInit();
    quickInit();
}

int main(int count, char **arguments) {
    static const struct mode modes[] = {
        {"empty", do_nothing},  {"decode", decode},   {"receive", receive}, {"damaged", damaged},
        {"positions", receive}, {"listing", listing}, {"shown", shown},     {NULL, NULL}};
    if (count != 5) {
        fprintf(stderr, "readsb MODE CORPUS WARM COUNT\n");
        return 2;
    }
    set_up();
    to_warm = strtoul(arguments[3], NULL, 10);
    run_bench(modes, arguments[1], arguments[2], warm_up, arguments[3], arguments[4]);
    if (strcmp(arguments[1], "positions") == 0) {
        print_positions();
    }
    return 0;
}
