/*
 * A call made by the functions of addercoil_easy.h, in C or in C++: see call.h. What a struct has is laid out as the
 * entries of the result array, by what the comments of both headers say, and not by what the wrappers do. A call whose
 * result array has another length cannot be said with structs, nor can a state of more than 32 bits.
 */
#include "call.h"
#include <addercoil_easy.h>
#include <math.h>
#include <stdio.h>
#include <string.h>

#define NO_NUMBER 99 /* what no function answers: the struct is wrong */

static struct addercoil_spot spot(uint64_t latitude, uint64_t longitude) {
    struct addercoil_spot made = {(int32_t)latitude, (uint32_t)longitude};
    return made;
}

static struct addercoil_counts counts(uint64_t latitude, uint64_t longitude) {
    struct addercoil_counts made = {(uint32_t)latitude, (uint32_t)longitude};
    return made;
}

/* The entries of a reading, of a spot, of a saved position. */
static void put(uint64_t *row, int at, struct addercoil_reading reading) {
    row[at] = reading.is;
    row[at + 1] = (uint64_t)reading.value;
}

static void put_spot(uint64_t *row, int at, struct addercoil_spot from) {
    row[at] = (uint64_t)(int64_t)from.latitude;
    row[at + 1] = from.longitude;
}

static void put_saved(uint64_t *row, int at, struct addercoil_saved saved) {
    row[at] = (uint64_t)saved.known;
    row[at + 1] = saved.counts.latitude;
    row[at + 2] = saved.counts.longitude;
    row[at + 3] = saved.time;
}

/* A known callsign: its characters, and the spaces behind them, of which the text has none. */
static void put_callsign(uint64_t *row, int at, const char *callsign) {
    size_t i, length = strlen(callsign);
    row[at] = length > 0 && callsign[length - 1] == ' ' ? NO_NUMBER : ADDERCOIL_KNOWN;
    row[at + 1] = 0;
    for (i = 0; i < 8; i++) {
        row[at + 1] = row[at + 1] << 8 | (uint8_t)(i < length ? callsign[i] : ' ');
    }
}

/* What a track has of an identification; a callsign of spaces is known, and as text it is empty too. */
static void put_identification(uint64_t *row, const struct addercoil_track *track) {
    if (track->category[0] == '\0') {
        return;
    }
    put_callsign(row, ADDERCOIL_TRACK_CALLSIGN_IS, track->callsign);
    row[ADDERCOIL_TRACK_CATEGORY_SET_IS] = row[ADDERCOIL_TRACK_CATEGORY_IS] = ADDERCOIL_KNOWN;
    row[ADDERCOIL_TRACK_CATEGORY_SET] = (uint64_t)track->category[0];
    row[ADDERCOIL_TRACK_CATEGORY] = (uint64_t)(track->category[1] - '0');
}

static void put_readings(uint64_t *row, const struct addercoil_track *track) {
    put(row, ADDERCOIL_TRACK_ALTITUDE_IS, track->altitude);
    put(row, ADDERCOIL_TRACK_ALTITUDE_STEP_IS, track->altitude_step);
    put(row, ADDERCOIL_TRACK_GNSS_HEIGHT_IS, track->gnss_height);
    put(row, ADDERCOIL_TRACK_GNSS_HEIGHT_STEP_IS, track->gnss_height_step);
    put(row, ADDERCOIL_TRACK_EAST_IS, track->east);
    put(row, ADDERCOIL_TRACK_NORTH_IS, track->north);
    put(row, ADDERCOIL_TRACK_HEADING_IS, track->heading);
    put(row, ADDERCOIL_TRACK_HEADING_STATUS_IS, track->heading_status);
    put(row, ADDERCOIL_TRACK_AIRSPEED_IS, track->airspeed);
    put(row, ADDERCOIL_TRACK_AIRSPEED_KIND_IS, track->airspeed_kind);
    put(row, ADDERCOIL_TRACK_RATE_IS, track->rate);
    put(row, ADDERCOIL_TRACK_RATE_SOURCE_IS, track->rate_source);
    put(row, ADDERCOIL_TRACK_ON_GROUND_IS, track->on_ground);
    put(row, ADDERCOIL_TRACK_MOVEMENT_IS, track->movement);
    put(row, ADDERCOIL_TRACK_SURFACE_HEADING_IS, track->surface_heading);
    put(row, ADDERCOIL_TRACK_SURFACE_STATUS_IS, track->surface_status);
    put(row, ADDERCOIL_TRACK_ANGLE_IS, track->angle);
    put(row, ADDERCOIL_TRACK_ANGLE_STATUS_IS, track->angle_status);
    put(row, ADDERCOIL_TRACK_SPEED_IS, track->speed);
    put(row, ADDERCOIL_TRACK_INTEGRITY_IS, track->integrity);
}

/* The version and the supplements, and of the last position message what the integrity goes by. */
static void put_standard(uint64_t *row, const struct addercoil_track *track) {
    row[ADDERCOIL_TRACK_POSITION_TYPE] = track->position_type;
    row[ADDERCOIL_TRACK_POSITION_BIT8] = (uint64_t)track->position_bit8;
    row[ADDERCOIL_TRACK_VERSION] = track->version;
    row[ADDERCOIL_TRACK_SUPPLEMENT_A] = (uint64_t)track->supplement_a;
    row[ADDERCOIL_TRACK_SUPPLEMENT_B] = (uint64_t)track->supplement_b;
    row[ADDERCOIL_TRACK_SUPPLEMENT_C] = (uint64_t)track->supplement_c;
}

/* Whether a struct is as it was filled before the call. */
static int left(const void *made, size_t size) {
    const uint8_t *bytes = (const uint8_t *)made;
    size_t i;
    for (i = 0; i < size; i++) {
        if (bytes[i] != FRESH) {
            return 0;
        }
    }
    return 1;
}

/* Whether a number is another, but for what doubles lose. */
static int is_near(double value, double other) {
    return fabs(value - other) <= 1e-9 * (1 + fabs(other));
}

/* Whether speed and direction over ground, of a track in the air, have its two parts, if both are known. That each is what the
 * model says, of all tracks, reference/run_python.py sees. */
static int parts_right(const struct addercoil_track *track) {
    const double turn = 57.29577951308232;
    double knots = -1, degrees = -1;
    uint32_t speed = addercoil_easy_speed(track, &knots), direction = addercoil_easy_direction(track, &degrees);
    if (track->on_ground.value == 1 || track->angle.is == ADDERCOIL_KNOWN) {
        return knots >= 0 && degrees >= 0 && degrees < 360;
    }
    if (track->east.is != ADDERCOIL_KNOWN || track->north.is != ADDERCOIL_KNOWN) {
        return speed != ADDERCOIL_KNOWN && direction == ADDERCOIL_UNKNOWN && is_near(knots, 0) && is_near(degrees, 0);
    }
    return speed == ADDERCOIL_KNOWN && (direction == ADDERCOIL_KNOWN) == (knots > 0) &&
           is_near(knots * sin(degrees / turn), (double)track->east.value) &&
           is_near(knots * cos(degrees / turn), (double)track->north.value);
}

/* The entries of a track's struct. */
static uint32_t put_track(uint32_t number, const struct addercoil_track *track, uint64_t *row) {
    if (number != ADDERCOIL_OK) {
        return left(track, sizeof *track) ? number : NO_NUMBER;
    }
    memset(row, 0, ADDERCOIL_TRACK * sizeof *row);
    row[ADDERCOIL_TRACK_HELD] = (uint64_t)track->held;
    row[ADDERCOIL_TRACK_HEARD] = track->heard;
    row[ADDERCOIL_TRACK_IDENTIFICATION] = track->identification;
    row[ADDERCOIL_TRACK_VELOCITY] = track->velocity;
    row[ADDERCOIL_TRACK_SURFACE] = track->surface;
    row[ADDERCOIL_TRACK_STATUS] = track->status;
    row[ADDERCOIL_TRACK_PRESSURE_CODE] = track->pressure_code;
    row[ADDERCOIL_TRACK_HEIGHT_CODE] = track->height_code;
    row[ADDERCOIL_TRACK_POSITION_KNOWN] = (uint64_t)track->position_known;
    put_spot(row, ADDERCOIL_TRACK_LATITUDE, track->position);
    row[ADDERCOIL_TRACK_POSITION_TIME] = track->position_time;
    put_saved(row, ADDERCOIL_TRACK_EVEN_KNOWN, track->even);
    put_saved(row, ADDERCOIL_TRACK_ODD_KNOWN, track->odd);
    put_identification(row, track);
    put_readings(row, track);
    put_standard(row, track);
    return parts_right(track) ? number : NO_NUMBER;
}

static uint32_t look_up(struct addercoil_table table, uint32_t key, uint64_t *row) {
    struct addercoil_track track;
    memset(&track, FRESH, sizeof track);
    return put_track(addercoil_easy_look_up(table, key, &track), &track, row);
}

/* Whether a replay with a site beyond either pole is refused with the number of a field, and leaves the struct. */
static int beyond_refused(const uint8_t *log, size_t size, uint32_t key) {
    struct addercoil_track track, fresh;
    memset(&fresh, FRESH, sizeof fresh);
    track = fresh;
    return addercoil_easy_replay_at(log, size, key, spot(0x40000001, 0), &track) == ADDERCOIL_REFUSED_FIELD &&
           addercoil_easy_replay_at(log, size, key, spot(-(uint64_t)0x40000001, 0), &track) == ADDERCOIL_REFUSED_FIELD &&
           memcmp(&track, &fresh, sizeof track) == 0;
}

/* Of a kind and an address, with a site or without; or of an address, a flag and a station. A site changes nothing of
 * the latter, but one beyond a pole is refused. */
static uint32_t replay(const struct call *call, const uint8_t *log, uint64_t *row) {
    const uint64_t *n = call->numbers;
    struct addercoil_track track;
    uint32_t key = ADDERCOIL_KEY_OF(n[0], n[1]), number;
    memset(&track, FRESH, sizeof track);
    if (call->function == REPLAY_COARSE) {
        key = ADDERCOIL_KEY_COARSE(n[0], n[1], n[2]);
        number = (n[0] + n[2]) % 2 == 0
                     ? addercoil_easy_replay(log, call->given_size, key, &track)
                     : addercoil_easy_replay_at(log, call->given_size, key, spot(0x40000000, n[0]), &track);
        return number != ADDERCOIL_OK || beyond_refused(log, call->given_size, key) ? put_track(number, &track, row) : NO_NUMBER;
    }
    number = call->function == REPLAY ? addercoil_easy_replay(log, call->given_size, key, &track)
                                      : addercoil_easy_replay_at(log, call->given_size, key, spot(n[2], n[3]), &track);
    return put_track(number, &track, row);
}

/* The readings of a message, by its layout. */
static void put_meant(uint64_t *row, const struct addercoil_message *m) {
    switch (m->layout) {
    case ADDERCOIL_LAYOUT_IDENTIFICATION:
        put_callsign(row, ADDERCOIL_IDENTIFICATION_TEXT_IS, m->callsign);
        row[ADDERCOIL_IDENTIFICATION_SET_IS] = ADDERCOIL_KNOWN;
        row[ADDERCOIL_IDENTIFICATION_SET] = (uint64_t)m->category[0];
        row[ADDERCOIL_IDENTIFICATION_CATEGORY] = (uint64_t)(m->category[1] - '0');
        return;
    case ADDERCOIL_LAYOUT_SURFACE:
        put(row, ADDERCOIL_SURFACE_SPEED_IS, m->movement);
        put(row, ADDERCOIL_SURFACE_TURN_IS, m->surface_heading);
        row[ADDERCOIL_SURFACE_STATUS] = (uint64_t)m->surface_status;
        return;
    case ADDERCOIL_LAYOUT_AIRBORNE:
        put(row, ADDERCOIL_AIRBORNE_ALTITUDE_IS, m->altitude);
        put(row, ADDERCOIL_AIRBORNE_STEP_IS, m->altitude_step);
        put(row, ADDERCOIL_AIRBORNE_GNSS_IS, m->gnss);
        return;
    case ADDERCOIL_LAYOUT_COARSE:
        put(row, ADDERCOIL_COARSE_ALTITUDE_IS, m->altitude);
        put(row, ADDERCOIL_COARSE_STEP_IS, m->altitude_step);
        put(row, ADDERCOIL_COARSE_ANGLE_IS, m->angle);
        put(row, ADDERCOIL_COARSE_SPEED_IS, m->speed);
        row[ADDERCOIL_COARSE_STATUS] = (uint64_t)m->angle_status;
        return;
    case ADDERCOIL_LAYOUT_STATUS:
        put(row, ADDERCOIL_STATUS_VERSION_IS, m->version);
        put(row, ADDERCOIL_STATUS_SUPPLEMENT_A_IS, m->supplement_a);
        put(row, ADDERCOIL_STATUS_SUPPLEMENT_C_IS, m->supplement_c);
        return;
    case ADDERCOIL_LAYOUT_GROUND:
        put(row, ADDERCOIL_GROUND_EAST_IS, m->east);
        put(row, ADDERCOIL_GROUND_NORTH_IS, m->north);
        break;
    default:
        put(row, ADDERCOIL_AIR_TURN_IS, m->heading);
        put(row, ADDERCOIL_AIR_SPEED_IS, m->airspeed);
        row[ADDERCOIL_AIR_STATUS] = (uint64_t)m->heading_status;
    }
    put(row, ADDERCOIL_VERTICAL_RATE_IS, m->rate);
    put(row, ADDERCOIL_VERTICAL_DIFFERENCE_IS, m->difference);
}

/* Whether the readings that its layout has not are unknown, which is 0. */
static int others_unknown(const struct addercoil_message *m) {
    uint32_t is = m->layout;
    int named = is == ADDERCOIL_LAYOUT_IDENTIFICATION, airborne = is == ADDERCOIL_LAYOUT_AIRBORNE;
    int surface = is == ADDERCOIL_LAYOUT_SURFACE, ground = is == ADDERCOIL_LAYOUT_GROUND,
        air = is == ADDERCOIL_LAYOUT_AIR, status = is == ADDERCOIL_LAYOUT_STATUS,
        coarse = is == ADDERCOIL_LAYOUT_COARSE;
    return (named || (m->callsign[0] | m->category[0]) == 0) &&
           (surface || ((m->movement.is | m->surface_heading.is) == 0 && !m->surface_status)) &&
           (airborne || coarse || (m->altitude.is | m->altitude_step.is) == 0) && (airborne || m->gnss.is == 0) &&
           (coarse || ((m->angle.is | m->speed.is) == 0 && !m->angle_status)) &&
           (ground || (m->east.is | m->north.is) == 0) &&
           (air || ((m->heading.is | m->airspeed.is) == 0 && !m->heading_status)) &&
           (ground || air || (m->rate.is | m->difference.is) == 0) &&
           (status || (m->version.is | m->supplement_a.is | m->supplement_c.is) == 0);
}

/* Whether a key, if there is one, is made of its kind and the address, and comes apart; so with the flag and the
 * station of a coarse message. */
static int key_is(uint32_t key, const struct addercoil_message *m) {
    uint32_t kind = ADDERCOIL_KEY_KIND(key), flag = ADDERCOIL_KEY_FLAG(key), station = ADDERCOIL_KEY_STATION(key);
    if (key == 0 || ADDERCOIL_KEY_AA(key) != m->aa) {
        return key == 0;
    }
    if (m->layout != ADDERCOIL_LAYOUT_COARSE) {
        return key == ADDERCOIL_KEY_OF(kind, m->aa) && flag == 0 && station == 0;
    }
    return kind == ADDERCOIL_KIND_C && key == ADDERCOIL_KEY_COARSE(m->aa, flag, station) &&
           flag == m->fields[ADDERCOIL_COARSE_FLAG] && station == m->fields[ADDERCOIL_COARSE_STATION];
}

/* The entries of a message's struct: what has no name there is taken from its own entries. */
static uint32_t put_message(uint32_t number, const struct addercoil_message *m, uint64_t *row) {
    if (number != ADDERCOIL_OK) {
        return left(m, sizeof *m) ? number : NO_NUMBER;
    }
    memset(row, 0, ADDERCOIL_FIELDS * sizeof *row);
    memcpy(row + ADDERCOIL_TYPECODE, m->fields + ADDERCOIL_TYPECODE,
           ((int)ADDERCOIL_IDENTIFICATION_SET_IS - (int)ADDERCOIL_TYPECODE) * sizeof *row);
    row[ADDERCOIL_LAYOUT] = m->layout;
    row[ADDERCOIL_DF] = m->df;
    row[ADDERCOIL_CA] = m->ca;
    row[ADDERCOIL_AA] = m->aa;
    row[ADDERCOIL_KEY] = m->key;
    row[ADDERCOIL_TYPECODE] = m->type;
    put_meant(row, m);
    return others_unknown(m) && key_is(m->key, m) ? 0 : NO_NUMBER;
}

static uint32_t put_pair(uint32_t number, uint64_t *row, struct addercoil_spot from) {
    if (number == ADDERCOIL_OK) {
        put_spot(row, ADDERCOIL_SPOT_LATITUDE, from);
    }
    return number;
}

/* Doubles stand as their bit patterns. */
static uint32_t degrees(const uint64_t *n, uint64_t *row) {
    struct addercoil_degrees made;
    struct addercoil_spot back = spot(0, 0);
    uint32_t number = addercoil_easy_degrees(spot(n[0], n[1]), &made);
    if (number == ADDERCOIL_OK) {
        if (addercoil_easy_site_in_degrees(made, &back) != ADDERCOIL_OK || back.latitude != (int32_t)n[0] ||
            back.longitude != (uint32_t)n[1]) {
            return NO_NUMBER;
        }
        memcpy(row + ADDERCOIL_DEGREES_LATITUDE, &made.latitude, sizeof *row);
        memcpy(row + ADDERCOIL_DEGREES_LONGITUDE, &made.longitude, sizeof *row);
    }
    return number;
}

static uint32_t from_degrees(const uint64_t *n, uint64_t *row) {
    struct addercoil_degrees given;
    struct addercoil_spot from = {0, 0};
    memcpy(&given.latitude, n, sizeof *n);
    memcpy(&given.longitude, n + 1, sizeof *n);
    return put_pair(addercoil_easy_from_degrees(given, &from), row, from);
}

static uint32_t encode_position(const struct call *call, uint64_t *row) {
    const uint64_t *n = call->numbers;
    struct addercoil_counts made;
    uint32_t number = call->function == ENCODE_POSITION
                          ? addercoil_easy_encode_position(spot(n[0], n[1]), (int)n[2], (int)n[3], &made)
                          : addercoil_easy_encode_position_coarse(spot(n[0], n[1]), (int)n[2], &made);
    if (number == ADDERCOIL_OK) {
        row[ADDERCOIL_COUNT_LATITUDE] = made.latitude;
        row[ADDERCOIL_COUNT_LONGITUDE] = made.longitude;
    }
    return number;
}

static uint32_t site(struct addercoil_table table, uint64_t *row) {
    struct addercoil_site from;
    uint32_t number = addercoil_easy_site(table, &from);
    if (number == ADDERCOIL_OK) {
        row[ADDERCOIL_SITE_KNOWN] = (uint64_t)from.known;
        put_spot(row, ADDERCOIL_SITE_LATITUDE, from.spot);
    }
    return number;
}

/* The walk says whether there is a key, and no number: that of a table that is refused is the clock's. */
static uint32_t next(struct addercoil_table table, uint32_t key, uint64_t *row) {
    uint64_t clock;
    uint32_t above = key, number = addercoil_easy_clock(table, &clock);
    int found = addercoil_easy_next(table, &above);
    if (number == ADDERCOIL_OK) {
        *row = found ? above : 0;
    }
    return found == (above != key) && (number == ADDERCOIL_OK || !found) ? number : NO_NUMBER;
}

static uint32_t receive_stamp(const struct call *call, struct addercoil_table table, const uint8_t *given,
                              uint64_t *row) {
    struct addercoil_stamps stamps = {(uint32_t)row[ADDERCOIL_STAMP_STARTED], (uint32_t)row[ADDERCOIL_STAMP_LAST]};
    uint32_t number = addercoil_easy_receive_stamp(table, given, call->given_size, (uint32_t)call->numbers[0], &stamps);
    row[ADDERCOIL_STAMP_STARTED] = stamps.started;
    row[ADDERCOIL_STAMP_LAST] = stamps.last;
    return number;
}

static uint32_t feed_block(const struct call *call, struct addercoil_table table, const uint8_t *given, uint64_t *row) {
    uint64_t bad = call->numbers[0];
    uint32_t number = addercoil_easy_feed_block(table, given, call->given_size, &bad);
    if (number == ADDERCOIL_OK) {
        *row = bad;
    }
    return number;
}

/* Of a capture, which is lent in the place of a table. */
static uint32_t check(const struct call *call, struct addercoil_table capture, const uint8_t *given, uint64_t *row) {
    uint64_t line = 0;
    uint32_t number =
        addercoil_easy_check(capture.bytes, capture.length, (const char *)given, call->given_size, &line);
    if (number == ADDERCOIL_OK) {
        *row = line;
    }
    return number;
}

static uint32_t encode(const uint8_t *given, uint8_t *bytes) {
    struct addercoil_message message;
    memcpy(message.fields, given, sizeof message.fields);
    return addercoil_easy_encode(&message, bytes);
}

/* A line begins with the letter of the key's kind and the address in hex; of kind C with flag and station too. */
static uint32_t line(struct addercoil_table table, uint32_t key, int all, char *text) {
    char begins[32];
    uint32_t number = addercoil_easy_line(table, key, all, text);
    int end = sprintf(begins, "%c %06X ", addercoil_easy_kind_letter(key), (unsigned)ADDERCOIL_KEY_AA(key));
    if (ADDERCOIL_KEY_IS_COARSE(key)) {
        sprintf(begins + end, "%u %u ", (unsigned)ADDERCOIL_KEY_FLAG(key), (unsigned)ADDERCOIL_KEY_STATION(key));
    }
    return number != ADDERCOIL_OK || text[0] == '\0' || strncmp(text, begins, strlen(begins)) == 0 ? number : NO_NUMBER;
}

/* Whether each of these has the letter of its kind, or '-' where it is no key. */
static int letters_right(void) {
    static const uint32_t keys[] = {0,         0xFFFFFF,  0x1000000,  0x2000000,   0x3000000,   0x4000000,
                                    0x5FFFFFF, 0x6000000, 0x7FFFFFFF, 0x80000000u, 0x9FFFFFFFu, 0xA0000000u};
    static const char letters[] = "--IOTMN--CC-";
    size_t i;
    for (i = 0; i < sizeof keys / sizeof *keys; i++) {
        if (addercoil_easy_kind_letter(keys[i]) != letters[i]) {
            return 0;
        }
    }
    return 1;
}

/* The version, if each number has words of its own, what is no number has none, and each key its kind's letter. */
static uint64_t version(void) {
    uint32_t i, j;
    if (!letters_right()) {
        return NO_NUMBER;
    }
    for (i = 0; i < ADDERCOIL_NUMBERS; i++) {
        for (j = 0; j < i; j++) {
            if (strcmp(addercoil_easy_number_words(i), addercoil_easy_number_words(j)) == 0) {
                return NO_NUMBER;
            }
        }
    }
    return addercoil_easy_number_words(ADDERCOIL_NUMBERS)[0] == '\0' ? addercoil_version() : NO_NUMBER;
}

static uint32_t with_table(const struct call *call, struct addercoil_table t, const uint8_t *given, uint8_t *result) {
    const uint64_t *n = call->numbers;
    uint64_t *row = (uint64_t *)result;
    switch (call->function) {
    case SET_UP:
        return addercoil_easy_set_up(t);
    case SET_UP_AT:
        return addercoil_easy_set_up_at(t, spot(n[0], n[1]));
    case RECEIVE:
        return addercoil_easy_receive(t, given, call->given_size, n[0]);
    case RECEIVE_STAMP:
        return receive_stamp(call, t, given, row);
    case CLOCK:
        return addercoil_easy_clock(t, row);
    case SITE:
        return site(t, row);
    case NEXT:
        return next(t, (uint32_t)n[0], row);
    case LOOK_UP:
        return look_up(t, (uint32_t)n[0], row);
    case LISTING:
        return addercoil_easy_listing(t, n[0], (int)n[1], call->order, (char *)result, call->written);
    case HEADER:
        return addercoil_easy_header(t, n[0], (int)n[1], (char *)result);
    case LINE:
        return line(t, (uint32_t)n[0], (int)n[1], (char *)result);
    case CHECK:
        return check(call, t, given, row);
    case MERGE:
        return addercoil_easy_merge((const char *)t.bytes, t.length, (const char *)given, call->given_size,
                                    (char *)result, call->written);
    default:
        return feed_block(call, t, given, row);
    }
}

static uint32_t key(const uint8_t *given, size_t size, uint64_t *row) {
    uint32_t said = 0;
    uint32_t number = addercoil_easy_key(given, size, &said);
    if (number == ADDERCOIL_OK) {
        row[0] = said;
    }
    return number;
}

static uint64_t without_table(const struct call *call, const uint8_t *given, uint8_t *result) {
    const uint64_t *n = call->numbers;
    uint64_t *row = (uint64_t *)result;
    struct addercoil_message message;
    struct addercoil_spot from = {0, 0};
    uint32_t number;
    memset(&message, FRESH, sizeof message);
    switch (call->function) {
    case VERSION:
        return version();
    case TABLE_BYTES:
        return addercoil_table_bytes(n[0]);
    case REPLAY:
    case REPLAY_AT:
    case REPLAY_COARSE:
        return replay(call, given, row);
    case ENCODE_POSITION:
    case ENCODE_POSITION_COARSE:
        return encode_position(call, row);
    case PAIR:
        number = addercoil_easy_pair(counts(n[0], n[1]), counts(n[2], n[3]), (int)n[4], &from);
        return put_pair(number, row, from);
    case SINGLE:
        number = addercoil_easy_single(spot(n[0], n[1]), counts(n[2], n[3]), (int)n[4], (int)n[5], &from);
        return put_pair(number, row, from);
    case PAIR_COARSE:
        number = addercoil_easy_pair_coarse(counts(n[0], n[1]), counts(n[2], n[3]), (int)n[4], &from);
        return put_pair(number, row, from);
    case SINGLE_COARSE:
        number = addercoil_easy_single_coarse(spot(n[0], n[1]), counts(n[2], n[3]), (int)n[4], &from);
        return put_pair(number, row, from);
    case DEGREES:
        return degrees(n, row);
    case FROM_DEGREES:
        return from_degrees(n, row);
    case DECODE:
        number = addercoil_easy_decode(given, call->given_size, &message);
        return put_message(number, &message, row);
    case KEY:
        return key(given, call->given_size, row);
    case ME:
        number = addercoil_easy_me(n[0], (uint32_t)n[1], &message);
        return put_message(number, &message, row);
    default:
        return encode(given, result);
    }
}

uint64_t call_by(const struct call *call, uint8_t *table, uint8_t *given, uint8_t *result) {
    struct addercoil_table lent = {table, call->table_size};
    if (shapes[call->function].table == NO_TABLE) {
        return without_table(call, given, result);
    }
    return with_table(call, lent, given, result);
}
