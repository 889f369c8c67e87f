/*
 * Addercoil with structs: the functions of addercoil.h for those who don't want arrays of numbers. Each that is lent
 * something has its twin here, which calls it with the lengths filled in and hands its answer on: 0, or a number that
 * says why it refused; addercoil_easy_next says whether there is one more. A call that refuses leaves what it was to
 * fill as it was, but for the state of stamps, as addercoil_receive_stamp says. In C++ too the structs of a site and of
 * degrees are named with the word struct, since functions have their names.
 *
 * addercoil.h says what each call does, what the caller must keep, and what the units are. A struct has its entries by
 * name; a reading is what it is, ADDERCOIL_KNOWN or another, and its value. Text is empty where it is unknown.
 *
 * Three have no twin: addercoil_easy_speed, addercoil_easy_direction and addercoil_easy_site_in_degrees, which compute in
 * doubles. A program that calls one of the first two is linked with -lm, and no other needs it.
 *
 *     static uint8_t bytes[ADDERCOIL_TABLE_BYTES(256)];
 *     struct addercoil_table table = {bytes, sizeof bytes};
 *     addercoil_easy_set_up(table);
 */
#ifndef ADDERCOIL_EASY_H
#define ADDERCOIL_EASY_H

#include "addercoil.h"

/* The bytes that are lent for a table. */
struct addercoil_table {
    uint8_t *bytes;
    addercoil_size length;
};

/* A spot on the earth, the two counts that a message says of it, the spot in degrees, and a site. */
struct addercoil_spot {
    int32_t latitude;
    uint32_t longitude;
};
struct addercoil_counts {
    uint32_t latitude;
    uint32_t longitude;
};
struct addercoil_degrees {
    double latitude;
    double longitude;
};
struct addercoil_site {
    int known;
    struct addercoil_spot spot;
};

/* The state of a clock of 32 bits: {0, 0} at first, and again after each set-up. */
struct addercoil_stamps {
    uint32_t started;
    uint32_t last;
};

/* What a reading is, and its value. */
struct addercoil_reading {
    uint32_t is;
    int64_t value;
};

/* The latest even, or odd, encoded position of a track; of kind C its counts are coarse. */
struct addercoil_saved {
    int known;
    struct addercoil_counts counts;
    uint64_t time;
};

/* The entries of ADDERCOIL_TRACK_.., which say what each is. */
struct addercoil_track {
    int held;
    uint64_t heard;
    uint64_t identification; /* an ME, for addercoil_easy_me; 0 if none was heard */
    uint64_t velocity;
    uint64_t surface;
    uint64_t status;
    uint32_t pressure_code;
    uint32_t height_code;
    uint32_t position_type;
    int position_bit8;
    int position_known;
    struct addercoil_spot position;
    uint64_t position_time;
    struct addercoil_saved even;
    struct addercoil_saved odd;
    struct addercoil_reading altitude;
    struct addercoil_reading altitude_step;
    struct addercoil_reading gnss_height;
    struct addercoil_reading gnss_height_step;
    char callsign[9];
    char category[3]; /* its set and its number, as A3 */
    struct addercoil_reading east;
    struct addercoil_reading north;
    struct addercoil_reading heading;
    struct addercoil_reading heading_status;
    struct addercoil_reading airspeed;
    struct addercoil_reading airspeed_kind; /* 0 indicated, 1 true */
    struct addercoil_reading rate;
    struct addercoil_reading rate_source; /* 0 geometric, 1 barometric */
    struct addercoil_reading on_ground;
    struct addercoil_reading movement;
    struct addercoil_reading surface_heading;
    struct addercoil_reading surface_status;
    struct addercoil_reading angle; /* of kind C, as the next two */
    struct addercoil_reading angle_status;
    struct addercoil_reading speed;
    uint32_t version;
    int supplement_a;
    int supplement_b;
    int supplement_c;
    struct addercoil_reading integrity; /* is: ADDERCOIL_INTEGRITY_NUC and so on */
};

/*
 * What a message says: its first entries, the readings of its layout, and below them all entries, as addercoil_decode
 * gives them. Readings that its layout has not are unknown.
 */
struct addercoil_message {
    uint32_t layout; /* ADDERCOIL_LAYOUT_SURFACE and so on */
    uint32_t df;
    uint32_t ca;
    uint32_t aa;
    uint32_t key;
    uint32_t type; /* of a coarse message, which has none, the flag of its address */
    char callsign[9]; /* of an identification, as the next */
    char category[3];
    struct addercoil_reading movement; /* of a surface position in 48ths of a knot, as the next two */
    struct addercoil_reading surface_heading;
    int surface_status; /* 1 if that heading is valid */
    struct addercoil_reading altitude; /* of an airborne position or a coarse message, as the next */
    struct addercoil_reading altitude_step;
    struct addercoil_reading gnss; /* 1 if it is a GNSS height; of an airborne position */
    struct addercoil_reading east; /* of a velocity over ground, as the next */
    struct addercoil_reading north;
    struct addercoil_reading heading; /* of a velocity through air, as the next two */
    int heading_status; /* 1 if that heading is valid */
    struct addercoil_reading airspeed;
    struct addercoil_reading rate; /* of either velocity, as the next */
    struct addercoil_reading difference;
    struct addercoil_reading version; /* of a status, as the next two */
    struct addercoil_reading supplement_a;
    struct addercoil_reading supplement_c;
    struct addercoil_reading angle; /* of a coarse message, as the next two */
    int angle_status; /* 1 if that angle is valid */
    struct addercoil_reading speed;
    uint64_t fields[ADDERCOIL_FIELDS];
};

/* ---- What the wrappers are made of ---- */

static inline struct addercoil_reading addercoil_easy_reading(const uint64_t *entries) {
    struct addercoil_reading reading;
    reading.is = (uint32_t)entries[0];
    reading.value = (int64_t)entries[1];
    return reading;
}

/* The two entries of a spot; what is no latitude does not come from the library. */
static inline struct addercoil_spot addercoil_easy_spot(const uint64_t *entries) {
    struct addercoil_spot spot;
    spot.latitude = (int32_t)(int64_t)entries[0];
    spot.longitude = (uint32_t)entries[1];
    return spot;
}

/* The four entries of a saved position. */
static inline struct addercoil_saved addercoil_easy_saved(const uint64_t *entries) {
    struct addercoil_saved saved;
    saved.known = (int)entries[0];
    saved.counts.latitude = (uint32_t)entries[1];
    saved.counts.longitude = (uint32_t)entries[2];
    saved.time = entries[3];
    return saved;
}

/* The two entries of a callsign as text without the spaces behind it. */
static inline void addercoil_easy_callsign(const uint64_t *entries, char *text) {
    int i, end = 0;
    for (i = 0; i < 8 && entries[0] == ADDERCOIL_KNOWN; i++) {
        text[i] = (char)(entries[1] >> (56 - 8 * i) & 0xFF);
        end = text[i] == ' ' ? end : i + 1;
    }
    text[end] = '\0';
}

/* The letter of a category's set, the two entries of its reading, and its number. */
static inline void addercoil_easy_category(const uint64_t *set, uint64_t number, char *text) {
    int known = set[0] == ADDERCOIL_KNOWN;
    text[0] = known ? (char)set[1] : '\0';
    text[1] = known ? (char)('0' + number) : '\0';
    text[2] = '\0';
}

/* A call that filled the row of a track answered so: the struct of it, if it did. */
static inline uint32_t addercoil_easy_to_track(uint32_t number, const uint64_t *row, struct addercoil_track *track) {
    if (number != ADDERCOIL_OK) {
        return number;
    }
    track->held = (int)row[ADDERCOIL_TRACK_HELD];
    track->heard = row[ADDERCOIL_TRACK_HEARD];
    track->identification = row[ADDERCOIL_TRACK_IDENTIFICATION];
    track->velocity = row[ADDERCOIL_TRACK_VELOCITY];
    track->surface = row[ADDERCOIL_TRACK_SURFACE];
    track->status = row[ADDERCOIL_TRACK_STATUS];
    track->pressure_code = (uint32_t)row[ADDERCOIL_TRACK_PRESSURE_CODE];
    track->height_code = (uint32_t)row[ADDERCOIL_TRACK_HEIGHT_CODE];
    track->position_type = (uint32_t)row[ADDERCOIL_TRACK_POSITION_TYPE];
    track->position_bit8 = (int)row[ADDERCOIL_TRACK_POSITION_BIT8];
    track->position_known = (int)row[ADDERCOIL_TRACK_POSITION_KNOWN];
    track->position = addercoil_easy_spot(row + ADDERCOIL_TRACK_LATITUDE);
    track->position_time = row[ADDERCOIL_TRACK_POSITION_TIME];
    track->even = addercoil_easy_saved(row + ADDERCOIL_TRACK_EVEN_KNOWN);
    track->odd = addercoil_easy_saved(row + ADDERCOIL_TRACK_ODD_KNOWN);
    track->altitude = addercoil_easy_reading(row + ADDERCOIL_TRACK_ALTITUDE_IS);
    track->altitude_step = addercoil_easy_reading(row + ADDERCOIL_TRACK_ALTITUDE_STEP_IS);
    track->gnss_height = addercoil_easy_reading(row + ADDERCOIL_TRACK_GNSS_HEIGHT_IS);
    track->gnss_height_step = addercoil_easy_reading(row + ADDERCOIL_TRACK_GNSS_HEIGHT_STEP_IS);
    addercoil_easy_callsign(row + ADDERCOIL_TRACK_CALLSIGN_IS, track->callsign);
    addercoil_easy_category(row + ADDERCOIL_TRACK_CATEGORY_SET_IS, row[ADDERCOIL_TRACK_CATEGORY], track->category);
    track->east = addercoil_easy_reading(row + ADDERCOIL_TRACK_EAST_IS);
    track->north = addercoil_easy_reading(row + ADDERCOIL_TRACK_NORTH_IS);
    track->heading = addercoil_easy_reading(row + ADDERCOIL_TRACK_HEADING_IS);
    track->heading_status = addercoil_easy_reading(row + ADDERCOIL_TRACK_HEADING_STATUS_IS);
    track->airspeed = addercoil_easy_reading(row + ADDERCOIL_TRACK_AIRSPEED_IS);
    track->airspeed_kind = addercoil_easy_reading(row + ADDERCOIL_TRACK_AIRSPEED_KIND_IS);
    track->rate = addercoil_easy_reading(row + ADDERCOIL_TRACK_RATE_IS);
    track->rate_source = addercoil_easy_reading(row + ADDERCOIL_TRACK_RATE_SOURCE_IS);
    track->on_ground = addercoil_easy_reading(row + ADDERCOIL_TRACK_ON_GROUND_IS);
    track->movement = addercoil_easy_reading(row + ADDERCOIL_TRACK_MOVEMENT_IS);
    track->surface_heading = addercoil_easy_reading(row + ADDERCOIL_TRACK_SURFACE_HEADING_IS);
    track->surface_status = addercoil_easy_reading(row + ADDERCOIL_TRACK_SURFACE_STATUS_IS);
    track->angle = addercoil_easy_reading(row + ADDERCOIL_TRACK_ANGLE_IS);
    track->angle_status = addercoil_easy_reading(row + ADDERCOIL_TRACK_ANGLE_STATUS_IS);
    track->speed = addercoil_easy_reading(row + ADDERCOIL_TRACK_SPEED_IS);
    track->version = (uint32_t)row[ADDERCOIL_TRACK_VERSION];
    track->supplement_a = (int)row[ADDERCOIL_TRACK_SUPPLEMENT_A];
    track->supplement_b = (int)row[ADDERCOIL_TRACK_SUPPLEMENT_B];
    track->supplement_c = (int)row[ADDERCOIL_TRACK_SUPPLEMENT_C];
    track->integrity = addercoil_easy_reading(row + ADDERCOIL_TRACK_INTEGRITY_IS);
    return ADDERCOIL_OK;
}

/* Where the reading of a layout stands that begins at an entry; of a message of another layout, an unknown one. */
static inline const uint64_t *addercoil_easy_at(const struct addercoil_message *message, uint32_t layout, int entry) {
    static const uint64_t unknown[2] = {ADDERCOIL_UNKNOWN, 0};
    return message->layout == layout ? message->fields + entry : unknown;
}

static inline struct addercoil_reading addercoil_easy_of(const struct addercoil_message *message, uint32_t layout,
                                                         int entry) {
    return addercoil_easy_reading(addercoil_easy_at(message, layout, entry));
}

/* The readings of a message from its entries. */
static inline void addercoil_easy_to_readings(struct addercoil_message *message) {
    const uint32_t named = ADDERCOIL_LAYOUT_IDENTIFICATION, surface = ADDERCOIL_LAYOUT_SURFACE;
    const uint32_t airborne = ADDERCOIL_LAYOUT_AIRBORNE, ground = ADDERCOIL_LAYOUT_GROUND, air = ADDERCOIL_LAYOUT_AIR;
    const uint32_t status = ADDERCOIL_LAYOUT_STATUS, coarse = ADDERCOIL_LAYOUT_COARSE;
    const uint64_t *fields = message->fields;
    uint32_t is = message->layout, velocity = is == air ? air : ground;
    addercoil_easy_callsign(addercoil_easy_at(message, named, ADDERCOIL_IDENTIFICATION_TEXT_IS), message->callsign);
    addercoil_easy_category(addercoil_easy_at(message, named, ADDERCOIL_IDENTIFICATION_SET_IS),
                            fields[ADDERCOIL_IDENTIFICATION_CATEGORY], message->category);
    message->movement = addercoil_easy_of(message, surface, ADDERCOIL_SURFACE_SPEED_IS);
    message->surface_heading = addercoil_easy_of(message, surface, ADDERCOIL_SURFACE_TURN_IS);
    message->surface_status = is == surface && fields[ADDERCOIL_SURFACE_STATUS] == 1;
    message->altitude = is == coarse ? addercoil_easy_of(message, coarse, ADDERCOIL_COARSE_ALTITUDE_IS)
                                     : addercoil_easy_of(message, airborne, ADDERCOIL_AIRBORNE_ALTITUDE_IS);
    message->altitude_step = is == coarse ? addercoil_easy_of(message, coarse, ADDERCOIL_COARSE_STEP_IS)
                                          : addercoil_easy_of(message, airborne, ADDERCOIL_AIRBORNE_STEP_IS);
    message->gnss = addercoil_easy_of(message, airborne, ADDERCOIL_AIRBORNE_GNSS_IS);
    message->east = addercoil_easy_of(message, ground, ADDERCOIL_GROUND_EAST_IS);
    message->north = addercoil_easy_of(message, ground, ADDERCOIL_GROUND_NORTH_IS);
    message->heading = addercoil_easy_of(message, air, ADDERCOIL_AIR_TURN_IS);
    message->heading_status = is == air && fields[ADDERCOIL_AIR_STATUS] == 1;
    message->airspeed = addercoil_easy_of(message, air, ADDERCOIL_AIR_SPEED_IS);
    message->rate = addercoil_easy_of(message, velocity, ADDERCOIL_VERTICAL_RATE_IS);
    message->difference = addercoil_easy_of(message, velocity, ADDERCOIL_VERTICAL_DIFFERENCE_IS);
    message->version = addercoil_easy_of(message, status, ADDERCOIL_STATUS_VERSION_IS);
    message->supplement_a = addercoil_easy_of(message, status, ADDERCOIL_STATUS_SUPPLEMENT_A_IS);
    message->supplement_c = addercoil_easy_of(message, status, ADDERCOIL_STATUS_SUPPLEMENT_C_IS);
    message->angle = addercoil_easy_of(message, coarse, ADDERCOIL_COARSE_ANGLE_IS);
    message->angle_status = is == coarse && fields[ADDERCOIL_COARSE_STATUS] == 1;
    message->speed = addercoil_easy_of(message, coarse, ADDERCOIL_COARSE_SPEED_IS);
}

/* A call that filled the entries answered so: the struct of them, if it did. */
static inline uint32_t addercoil_easy_to_message(uint32_t number, const uint64_t *fields,
                                                 struct addercoil_message *message) {
    int i;
    if (number != ADDERCOIL_OK) {
        return number;
    }
    for (i = 0; i < ADDERCOIL_FIELDS; i++) {
        message->fields[i] = fields[i];
    }
    message->layout = (uint32_t)fields[ADDERCOIL_LAYOUT];
    message->df = (uint32_t)fields[ADDERCOIL_DF];
    message->ca = (uint32_t)fields[ADDERCOIL_CA];
    message->aa = (uint32_t)fields[ADDERCOIL_AA];
    message->key = (uint32_t)fields[ADDERCOIL_KEY];
    message->type = (uint32_t)fields[ADDERCOIL_TYPECODE];
    addercoil_easy_to_readings(message);
    return ADDERCOIL_OK;
}

/* ---- Numbers and kinds in words ---- */

/* What a number that came back means. */
static inline const char *addercoil_easy_number_words(uint32_t number) {
    static const char *const words[] = ADDERCOIL_NUMBER_WORDS;
    return number < ADDERCOIL_NUMBERS ? words[number] : "";
}

/* The letter of a key's kind, or '-' of what is no key: the last is that of kind C with all bits of AA set. */
static inline char addercoil_easy_kind_letter(uint32_t key) {
    uint32_t kind = ADDERCOIL_KEY_KIND(key);
    if (ADDERCOIL_KEY_IS_COARSE(key)) {
        return key <= ADDERCOIL_KEY_COARSE(0xFFFFFF, 1, 15) ? 'C' : '-';
    }
    return kind >= ADDERCOIL_KIND_I && kind <= ADDERCOIL_KIND_N ? "IOTMN"[kind - ADDERCOIL_KIND_I] : '-';
}

/* ---- The table ---- */

static inline uint32_t addercoil_easy_set_up(struct addercoil_table table) {
    return addercoil_set_up(table.bytes, table.length);
}

static inline uint32_t addercoil_easy_set_up_at(struct addercoil_table table, struct addercoil_spot site) {
    return addercoil_set_up_at(table.bytes, table.length, site.latitude, site.longitude);
}

static inline uint32_t addercoil_easy_receive(struct addercoil_table table, const uint8_t *message,
                                              addercoil_size length, uint64_t time) {
    return addercoil_receive(table.bytes, table.length, message, length, time);
}

static inline uint32_t addercoil_easy_receive_stamp(struct addercoil_table table, const uint8_t *message,
                                                    addercoil_size length, uint32_t stamp,
                                                    struct addercoil_stamps *stamps) {
    uint64_t state[ADDERCOIL_STAMPS];
    uint32_t number;
    state[ADDERCOIL_STAMP_STARTED] = stamps->started;
    state[ADDERCOIL_STAMP_LAST] = stamps->last;
    number = addercoil_receive_stamp(table.bytes, table.length, message, length, stamp, state, ADDERCOIL_STAMPS);
    stamps->started = (uint32_t)state[ADDERCOIL_STAMP_STARTED];
    stamps->last = (uint32_t)state[ADDERCOIL_STAMP_LAST];
    return number;
}

static inline uint32_t addercoil_easy_clock(struct addercoil_table table, uint64_t *clock) {
    return addercoil_clock(table.bytes, table.length, clock, 1);
}

static inline uint32_t addercoil_easy_site(struct addercoil_table table, struct addercoil_site *site) {
    uint64_t row[ADDERCOIL_SITE];
    uint32_t number = addercoil_site(table.bytes, table.length, row, ADDERCOIL_SITE);
    if (number == ADDERCOIL_OK) {
        site->known = (int)row[ADDERCOIL_SITE_KNOWN];
        site->spot = addercoil_easy_spot(row + ADDERCOIL_SITE_LATITUDE);
    }
    return number;
}

/*
 * Whether a key above *key is held, and the smallest into *key: for (key = 0; addercoil_easy_next(table, &key);) walks
 * all. No, too, if the table is refused.
 */
static inline int addercoil_easy_next(struct addercoil_table table, uint32_t *key) {
    uint64_t above = 0;
    if (addercoil_next(table.bytes, table.length, *key, &above, 1) != ADDERCOIL_OK || above == 0) {
        return 0;
    }
    *key = (uint32_t)above;
    return 1;
}

static inline uint32_t addercoil_easy_look_up(struct addercoil_table table, uint32_t key,
                                              struct addercoil_track *track) {
    uint64_t row[ADDERCOIL_TRACK];
    uint32_t number = addercoil_look_up(table.bytes, table.length, key, row, ADDERCOIL_TRACK);
    return addercoil_easy_to_track(number, row, track);
}

/* ---- A doubted track, of a key, from a log ---- */

/* Of a key of kind C; of any other number the address is too wide, which is refused. */
static inline uint32_t addercoil_easy_replay_coarse(const uint8_t *log, addercoil_size length, uint32_t key,
                                                    struct addercoil_track *track) {
    uint64_t row[ADDERCOIL_TRACK];
    uint32_t address = ADDERCOIL_KEY_IS_COARSE(key) ? (key & 0x7FFFFFFFu) >> 5 : 0xFFFFFFFFu;
    uint32_t number = addercoil_replay_coarse(log, length, address, ADDERCOIL_KEY_FLAG(key), ADDERCOIL_KEY_STATION(key),
                                              row, ADDERCOIL_TRACK);
    return addercoil_easy_to_track(number, row, track);
}

/* Of a key of any kind. */
static inline uint32_t addercoil_easy_replay(const uint8_t *log, addercoil_size length, uint32_t key,
                                             struct addercoil_track *track) {
    uint64_t row[ADDERCOIL_TRACK];
    uint32_t number;
    if (ADDERCOIL_KEY_IS_COARSE(key)) {
        return addercoil_easy_replay_coarse(log, length, key, track);
    }
    number = addercoil_replay(log, length, ADDERCOIL_KEY_KIND(key), ADDERCOIL_KEY_AA(key), row, ADDERCOIL_TRACK);
    return addercoil_easy_to_track(number, row, track);
}

/* The same with a site. Kind C does not look at it, but a latitude beyond a pole is refused all the same. */
static inline uint32_t addercoil_easy_replay_at(const uint8_t *log, addercoil_size length, uint32_t key,
                                                struct addercoil_spot site, struct addercoil_track *track) {
    uint64_t row[ADDERCOIL_TRACK];
    uint32_t number;
    if (ADDERCOIL_KEY_IS_COARSE(key)) {
        int beyond = site.latitude < -0x40000000 || site.latitude > 0x40000000;
        return addercoil_easy_replay_coarse(log, length, beyond ? 0 : key, track); /* 0 is no key, with the same number */
    }
    number = addercoil_replay_at(log, length, ADDERCOIL_KEY_KIND(key), ADDERCOIL_KEY_AA(key), site.latitude,
                                 site.longitude, row, ADDERCOIL_TRACK);
    return addercoil_easy_to_track(number, row, track);
}

/* ---- The listing: as a whole, or each line into a buffer of ADDERCOIL_LINE chars ---- */

/*
 * All of it, into text of ADDERCOIL_LISTING_BYTES(places) chars, of which *written are used; order has an entry for each
 * place. How many places there are, the length of the table says.
 */
static inline uint32_t addercoil_easy_listing(struct addercoil_table table, uint64_t bad, int all, uint64_t *order,
                                              char *text, uint64_t *written) {
    addercoil_size head = ADDERCOIL_TABLE_BYTES(0);
    addercoil_size places = table.length < head ? 0 : (table.length - head) / (ADDERCOIL_TABLE_BYTES(1) - head);
    return addercoil_listing(table.bytes, table.length, bad, (uint32_t)all, order, places, (uint8_t *)text,
                             ADDERCOIL_LISTING_BYTES(places), written, 1);
}

static inline uint32_t addercoil_easy_header(struct addercoil_table table, uint64_t bad, int all, char *line) {
    return addercoil_header(table.bytes, table.length, bad, (uint32_t)all, (uint8_t *)line, ADDERCOIL_LINE);
}

static inline uint32_t addercoil_easy_line(struct addercoil_table table, uint32_t key, int all, char *line) {
    return addercoil_line(table.bytes, table.length, key, (uint32_t)all, (uint8_t *)line, ADDERCOIL_LINE);
}

/* A block of a capture; *bad counts the bad ones. */
static inline uint32_t addercoil_easy_feed_block(struct addercoil_table table, const uint8_t *block,
                                                 addercoil_size length, uint64_t *bad) {
    return addercoil_feed_block(table.bytes, table.length, block, length, *bad, bad, 1);
}

/* Another decoder's listing of a capture; *line is 0 for yes, else the first line at fault. */
static inline uint32_t addercoil_easy_check(const uint8_t *capture, addercoil_size capture_length, const char *listing,
                                            addercoil_size listing_length, uint64_t *line) {
    return addercoil_check(capture, capture_length, (const uint8_t *)listing, listing_length, line, 1);
}

/* Two listings as one, into text of as many chars as both have, of which *written are used. */
static inline uint32_t addercoil_easy_merge(const char *a, addercoil_size a_length, const char *b,
                                            addercoil_size b_length, char *text, uint64_t *written) {
    return addercoil_merge((const uint8_t *)a, a_length, (const uint8_t *)b, b_length, (uint8_t *)text,
                           a_length + b_length, written, 1);
}

/* ---- Positions; each of the first three has a twin of coarse counts ---- */

/* A call that filled the row of counts, or of a spot, answered so: the struct of it, if it did. */
static inline uint32_t addercoil_easy_to_counts(uint32_t number, const uint64_t *row, struct addercoil_counts *counts) {
    if (number == ADDERCOIL_OK) {
        counts->latitude = (uint32_t)row[ADDERCOIL_COUNT_LATITUDE];
        counts->longitude = (uint32_t)row[ADDERCOIL_COUNT_LONGITUDE];
    }
    return number;
}

static inline uint32_t addercoil_easy_to_spot(uint32_t number, const uint64_t *row, struct addercoil_spot *spot) {
    if (number == ADDERCOIL_OK) {
        *spot = addercoil_easy_spot(row);
    }
    return number;
}

static inline uint32_t addercoil_easy_encode_position(struct addercoil_spot spot, int surface, int odd,
                                                      struct addercoil_counts *counts) {
    uint64_t row[ADDERCOIL_COUNTS];
    uint32_t number = addercoil_encode_position(spot.latitude, spot.longitude, (uint32_t)surface, (uint32_t)odd, row,
                                                ADDERCOIL_COUNTS);
    return addercoil_easy_to_counts(number, row, counts);
}

static inline uint32_t addercoil_easy_encode_position_coarse(struct addercoil_spot spot, int odd,
                                                             struct addercoil_counts *counts) {
    uint64_t row[ADDERCOIL_COUNTS];
    uint32_t number =
        addercoil_encode_position_coarse(spot.latitude, spot.longitude, (uint32_t)odd, row, ADDERCOIL_COUNTS);
    return addercoil_easy_to_counts(number, row, counts);
}

static inline uint32_t addercoil_easy_pair(struct addercoil_counts even, struct addercoil_counts odd, int later_odd,
                                           struct addercoil_spot *spot) {
    uint64_t row[ADDERCOIL_SPOT];
    uint32_t number = addercoil_pair(even.latitude, even.longitude, odd.latitude, odd.longitude, (uint32_t)later_odd,
                                     row, ADDERCOIL_SPOT);
    return addercoil_easy_to_spot(number, row, spot);
}

static inline uint32_t addercoil_easy_pair_coarse(struct addercoil_counts even, struct addercoil_counts odd,
                                                  int later_odd, struct addercoil_spot *spot) {
    uint64_t row[ADDERCOIL_SPOT];
    uint32_t number = addercoil_pair_coarse(even.latitude, even.longitude, odd.latitude, odd.longitude,
                                            (uint32_t)later_odd, row, ADDERCOIL_SPOT);
    return addercoil_easy_to_spot(number, row, spot);
}

static inline uint32_t addercoil_easy_single(struct addercoil_spot about, struct addercoil_counts counts, int surface,
                                             int odd, struct addercoil_spot *spot) {
    uint64_t row[ADDERCOIL_SPOT];
    uint32_t number = addercoil_single(about.latitude, about.longitude, counts.latitude, counts.longitude,
                                       (uint32_t)surface, (uint32_t)odd, row, ADDERCOIL_SPOT);
    return addercoil_easy_to_spot(number, row, spot);
}

static inline uint32_t addercoil_easy_single_coarse(struct addercoil_spot about, struct addercoil_counts counts,
                                                    int odd, struct addercoil_spot *spot) {
    uint64_t row[ADDERCOIL_SPOT];
    uint32_t number = addercoil_single_coarse(about.latitude, about.longitude, counts.latitude, counts.longitude,
                                              (uint32_t)odd, row, ADDERCOIL_SPOT);
    return addercoil_easy_to_spot(number, row, spot);
}

static inline uint32_t addercoil_easy_degrees(struct addercoil_spot spot, struct addercoil_degrees *degrees) {
    double row[ADDERCOIL_DEGREES];
    uint32_t number = addercoil_degrees(spot.latitude, spot.longitude, row, ADDERCOIL_DEGREES);
    if (number == ADDERCOIL_OK) {
        degrees->latitude = row[ADDERCOIL_DEGREES_LATITUDE];
        degrees->longitude = row[ADDERCOIL_DEGREES_LONGITUDE];
    }
    return number;
}

static inline uint32_t addercoil_easy_from_degrees(struct addercoil_degrees degrees, struct addercoil_spot *spot) {
    uint64_t row[ADDERCOIL_SPOT];
    uint32_t number = addercoil_from_degrees(degrees.latitude, degrees.longitude, row, ADDERCOIL_SPOT);
    return addercoil_easy_to_spot(number, row, spot);
}

/* The whole number nearest to an angle in 2^-32 of a turn; a half goes away from zero. */
static inline int64_t addercoil_easy_units(double degrees) {
    double exact = degrees * 4294967296.0 / 360.0;
    return (int64_t)(exact < 0 ? exact - 0.5 : exact + 0.5);
}

/*
 * The spot nearest to a latitude, -90 to 90 degrees, and a longitude, -180 to 360, as people type them: for a site. Or
 * ADDERCOIL_REFUSED_FIELD for what is beyond, and for not-a-number.
 */
static inline uint32_t addercoil_easy_site_in_degrees(struct addercoil_degrees degrees, struct addercoil_spot *spot) {
    if (!(degrees.latitude >= -90 && degrees.latitude <= 90 && degrees.longitude >= -180 && degrees.longitude <= 360)) {
        return ADDERCOIL_REFUSED_FIELD;
    }
    spot->latitude = (int32_t)addercoil_easy_units(degrees.latitude);
    spot->longitude = (uint32_t)addercoil_easy_units(degrees.longitude);
    return ADDERCOIL_OK;
}

/* ---- Over ground ---- */

/* Whether a track is of kind C, whose angle alone is always known; and whether its last position was on the surface. */
static inline int addercoil_easy_is_coarse(const struct addercoil_track *track) {
    return track->angle.is == ADDERCOIL_KNOWN;
}

static inline int addercoil_easy_on_surface(const struct addercoil_track *track) {
    return track->on_ground.is == ADDERCOIL_KNOWN && track->on_ground.value == 1;
}

/* The speed of the two parts: unknown if one is, else over if one is, else the root of the sum of their squares. */
static inline uint32_t addercoil_easy_speed_in_air(const struct addercoil_track *track, double *knots) {
    double east = (double)track->east.value, north = (double)track->north.value;
    if (track->east.is == ADDERCOIL_UNKNOWN || track->north.is == ADDERCOIL_UNKNOWN) {
        return ADDERCOIL_UNKNOWN;
    }
    if (track->east.is == ADDERCOIL_OVER || track->north.is == ADDERCOIL_OVER) {
        return ADDERCOIL_OVER;
    }
    *knots = __builtin_sqrt(east * east + north * north);
    return ADDERCOIL_KNOWN;
}

/*
 * The speed over ground: says ADDERCOIL_KNOWN, ADDERCOIL_OVER or ADDERCOIL_UNKNOWN, and puts it into *knots. In the air
 * it comes of the two parts, as the nearest double to the root; on the surface it is the movement, the lower edge; of
 * kind C the lower edge of its step. *knots is where over begins on the surface and of kind C, else 0 if it is not known.
 * An airspeed is none.
 */
static inline uint32_t addercoil_easy_speed(const struct addercoil_track *track, double *knots) {
    struct addercoil_reading from = addercoil_easy_is_coarse(track) ? track->speed : track->movement;
    *knots = 0;
    if (!addercoil_easy_is_coarse(track) && !addercoil_easy_on_surface(track)) {
        return addercoil_easy_speed_in_air(track, knots);
    }
    *knots = (double)from.value / (addercoil_easy_is_coarse(track) ? 1 : 48);
    if (from.is == ADDERCOIL_STOPPED) {
        return ADDERCOIL_KNOWN;
    }
    return from.is == ADDERCOIL_NONE ? (uint32_t)ADDERCOIL_UNKNOWN : from.is;
}

/* A direction in degrees, if its status says that it is valid. */
static inline uint32_t addercoil_easy_valid(struct addercoil_reading turn, struct addercoil_reading status,
                                            double *degrees) {
    if (turn.is != ADDERCOIL_KNOWN || status.is != ADDERCOIL_KNOWN || status.value != 1) {
        return ADDERCOIL_UNKNOWN;
    }
    *degrees = (double)turn.value * 360.0 / 4294967296.0;
    return ADDERCOIL_KNOWN;
}

/*
 * The direction over ground, from north, clockwise, 0 to below 360 degrees: says ADDERCOIL_KNOWN or ADDERCOIL_UNKNOWN,
 * and puts it into *degrees, 0 if it is unknown. In the air it comes of the two parts, unless both are 0; on the surface
 * it is the heading, and of kind C the angle, if its status says that it is valid.
 */
static inline uint32_t addercoil_easy_direction(const struct addercoil_track *track, double *degrees) {
    double east = (double)track->east.value, north = (double)track->north.value;
    *degrees = 0;
    if (addercoil_easy_is_coarse(track)) {
        return addercoil_easy_valid(track->angle, track->angle_status, degrees);
    }
    if (addercoil_easy_on_surface(track)) {
        return addercoil_easy_valid(track->surface_heading, track->surface_status, degrees);
    }
    if (track->east.is != ADDERCOIL_KNOWN || track->north.is != ADDERCOIL_KNOWN || (east == 0 && north == 0)) {
        return ADDERCOIL_UNKNOWN;
    }
    *degrees = __builtin_atan2(east, north) * 57.29577951308232; /* 180 over pi */
    *degrees += *degrees < 0 ? 360 : 0;
    return ADDERCOIL_KNOWN;
}

/* ---- Messages ---- */

static inline uint32_t addercoil_easy_decode(const uint8_t *bytes, addercoil_size length,
                                             struct addercoil_message *message) {
    uint64_t fields[ADDERCOIL_FIELDS];
    uint32_t number = addercoil_decode(bytes, length, fields, ADDERCOIL_FIELDS);
    return addercoil_easy_to_message(number, fields, message);
}

static inline uint32_t addercoil_easy_key(const uint8_t *bytes, addercoil_size length, uint32_t *key) {
    uint64_t said = 0;
    uint32_t number = addercoil_key(bytes, length, &said, 1);
    if (number == ADDERCOIL_OK) {
        *key = (uint32_t)said;
    }
    return number;
}

static inline uint32_t addercoil_easy_me(uint64_t me, uint32_t key, struct addercoil_message *message) {
    uint64_t fields[ADDERCOIL_FIELDS];
    uint32_t number = addercoil_me(me, key, fields, ADDERCOIL_FIELDS);
    return addercoil_easy_to_message(number, fields, message);
}

/* Of a message's struct it reads `fields` alone. bytes are ADDERCOIL_MESSAGE. */
static inline uint32_t addercoil_easy_encode(const struct addercoil_message *message, uint8_t *bytes) {
    return addercoil_encode(message->fields, ADDERCOIL_FIELDS, bytes, ADDERCOIL_MESSAGE);
}

#endif
