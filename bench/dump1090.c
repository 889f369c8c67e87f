/*
 * dump1090-mutability's side of the bench: dump1090 MODE CORPUS WARM COUNT. bench/run builds it with that decoder's own
 * sources, which bench/fetch-peer fetches, and counts its instructions. The modes empty, decode, receive, damaged and
 * positions are those of bench/measure.c. Its listing is its JSON of all aircraft, made and thrown away; shown prints it, for
 * bench/run to look at. tracks prints the same of each aircraft with its doubles as they are, for bench/check-peer.
 *
 * The decoder is set up as its main function does for `--lat --lon --quiet --no-fix`: the site is known, nothing is
 * printed, no bit is mended and there is no network.
 */
#include "harness.h"

#include <dump1090.h>

static uint64_t now; /* the time of the message in hand */

/* The decoder asks for the time of day. It gets the message's time, which is cheaper than to ask the system. */
uint64_t mstime(void) {
    return now;
}

/* Its callers clear a message before each decoding: it sets only the fields that it finds. */
static struct modesMessage message;
static const struct modesMessage cleared;

static uint32_t decode(const struct record *record) {
    message = cleared;
    return (uint32_t)decodeModesMessage(&message, (unsigned char *)record->message);
}

static uint32_t receive(const struct record *record) {
    uint32_t answer = decode(record);
    now = record->time;
    if (answer == 0) {
        useModesMessage(&message);
    }
    return answer;
}

/* A damaged message is refused when it is decoded, and goes no further. */
static uint32_t damaged(const struct record *record) {
    return receive(record) == 0;
}

static uint32_t list(FILE *out) {
    int length = 0;
    char *text = generateAircraftJson("", &length);
    if (out != NULL) {
        fwrite(text, 1, (size_t)length, out);
    }
    free(text);
    return length == 0;
}

static uint32_t listing(const struct record *record) {
    (void)record;
    return list(NULL);
}

static uint32_t shown(const struct record *record) {
    (void)record;
    return list(stdout);
}

/* The bytes held, the share of positions, then address, latitude and longitude of each aircraft that has a position. */
static void print_positions(void) {
    const struct stats *stats = &Modes.stats_current;
    unsigned long given = stats->cpr_global_ok + stats->cpr_local_ok;
    unsigned long bytes = 0;
    for (const struct aircraft *a = Modes.aircrafts; a != NULL; a = a->next) {
        bytes += sizeof *a;
    }
    printf("%lu %lu %u\n", bytes, given, stats->cpr_surface + stats->cpr_airborne);
    for (const struct aircraft *a = Modes.aircrafts; a != NULL; a = a->next) {
        if (trackDataValid(&a->position_valid)) {
            printf("%06X %.6f %.6f\n", a->addr & 0xFFFFFF, a->lat, a->lon < 0 ? a->lon + 360 : a->lon);
        }
    }
}

/* Address, last heard, and latitude, longitude and altitude, or "-", with all digits of its doubles. */
static void print_tracks(void) {
    for (const struct aircraft *a = Modes.aircrafts; a != NULL; a = a->next) {
        printf("%s%06X %llu", a->addr & MODES_NON_ICAO_ADDRESS ? "~" : "", a->addr & 0xFFFFFF,
               (unsigned long long)a->seen);
        if (trackDataValid(&a->position_valid)) {
            printf(" %.17g %.17g", a->lat, a->lon);
        } else {
            printf(" - -");
        }
        if (trackDataValid(&a->altitude_valid)) {
            printf(" %d\n", a->altitude);
        } else {
            puts(" -");
        }
    }
}

static void set_up(void) {
    Modes.quiet = 1;
    Modes.check_crc = 1;
    Modes.fUserLat = SITE_LATITUDE;
    Modes.fUserLon = SITE_LONGITUDE;
    Modes.bUserFlags = MODES_USER_LATLON_VALID;
    Modes.maxRange = 1852 * 300; /* its default, 300 nautical miles */
    modesChecksumInit(0);
    icaoFilterInit();
}

int main(int count, char **arguments) {
    static const struct mode modes[] = {
        {"empty", do_nothing},  {"decode", decode},   {"receive", receive}, {"damaged", damaged},
        {"positions", receive}, {"listing", listing}, {"shown", shown},     {"tracks", receive},
        {NULL, NULL}};
    if (count != 5) {
        fprintf(stderr, "dump1090 MODE CORPUS WARM COUNT\n");
        return 2;
    }
    set_up();
    run_bench(modes, arguments[1], arguments[2], receive, arguments[3], arguments[4]);
    if (strcmp(arguments[1], "positions") == 0) {
        print_positions();
    }
    if (strcmp(arguments[1], "tracks") == 0) {
        print_tracks();
    }
    return 0;
}
