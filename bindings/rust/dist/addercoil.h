/*
 * Addercoil: ADS-B messages decoded, encoded and kept as tracks.
 *
 * Every function here is proved: for all arguments it ends, does nothing undefined, and gives the one answer that its
 * contract states. Nothing is allocated, nothing is global, nothing is printed, and no call keeps a pointer.
 *
 * What the caller must keep
 *   - A lent array is a pointer and a count of its elements, one after the other, and has at least as many elements as
 *     the count says. The pointer may be null only with the count 0.
 *   - It is aligned as its type is, and no two arrays of one call overlap.
 *   - While a call runs, nobody else writes what it was lent, or reads what it was lent to write: one caller at a time
 *     for one table. Two tables may be used at once.
 *
 * Results
 *   - A function answers 0, or a number that says why it refused (ADDERCOIL_REFUSED_LENGTH and so on). Where it could
 *     refuse for several reasons, it says the first in the order in which its comment lists them.
 *   - A result goes into a lent array that has just as many elements as its comment says. An array of another length is
 *     refused with ADDERCOIL_REFUSED_LENGTH. A call that refuses leaves its result array as it was. The state of
 *     addercoil_receive_stamp is no result: see there.
 *   - A number that can be below zero stands in a uint64_t in two's complement: (int64_t)out[i] is the number.
 *   - Unused entries are 0.
 *
 * Units
 *   - Latitude and longitude are in 2^-32 of a turn of 360 degrees. Latitude is signed, -2^30 (south pole) to 2^30.
 *     Longitude runs from 0 to the east, so that 2^31 is 180 degrees. addercoil_degrees gives both in degrees.
 *   - Times are in milliseconds, from whatever start the caller likes.
 *   - A key is an aircraft: its kind times 2^24, plus the 24 bits of AA (ADDERCOIL_KEY_OF). Of what aircraft send
 *     themselves the kinds are 1, I: an ICAO address, and 2, O: another one. Of what a ground station's traffic
 *     service sends (DF 18 with CF 2 or 5) they are 3, T: an ICAO address; 4, M: a Mode A code of 12 bits, then a
 *     track number of 12; 5, N: another address. Its coarse messages (CF 3) are of kind 6, C. Their key is 2^31, plus
 *     32 times AA, plus 16 times the flag of the address, plus the number of the station (ADDERCOIL_KEY_COARSE): an
 *     aircraft that two stations tell of is two keys. Flag 0 is an ICAO address, 1 a Mode A code with a track number.
 *
 * Compile all .S files of dist/ with your program, or link with libaddercoil.a, which `tools/install` makes of
 * them. The targets are x86_64, aarch64, armv6 and riscv64, which have Linux; thumbv7m and thumbv6m, boards without a
 * system; and wasm32.
 */
#ifndef ADDERCOIL_H
#define ADDERCOIL_H

#include <stddef.h>
#include <stdint.h>

/* What no archive is for, or was tried on. */
#if !defined(__x86_64__) && !defined(__aarch64__) && !defined(__arm__) && !defined(__wasm32__) &&                      \
    !(defined(__riscv) && __riscv_xlen == 64)
#error "Addercoil has no archive for this processor"
#elif !defined(__BYTE_ORDER__) || __BYTE_ORDER__ != __ORDER_LITTLE_ENDIAN__
#error "Addercoil has no archive for a processor that has the high byte first"
#elif !defined(__arm__) && !defined(__wasm32__) && __SIZEOF_SIZE_T__ != 8
#error "Addercoil has no archive for pointers of 32 bits on a processor of 64"
#endif

#ifdef __cplusplus
extern "C" {
#endif

/*
 * A length or a count: of 64 bits on every system, so that none is cut on its way. Callers hand over a size_t as it is.
 */
#if __SIZEOF_SIZE_T__ == 8
typedef size_t addercoil_size;
#else
typedef uint64_t addercoil_size;
#endif

/*
 * 10,000 times the major number, 100 times the minor one, and the patch: this is 0.10.0. addercoil_version() says that
 * of the archive; where the two differ, the program was built with another header. The bytes of a table may change with
 * it.
 */
#define ADDERCOIL_VERSION 1000

/* The version of the archive, as ADDERCOIL_VERSION has it. */
uint32_t addercoil_version(void);

/* The numbers that come back. */
enum {
    ADDERCOIL_OK = 0,
    ADDERCOIL_REFUSED_LENGTH = 1,    /* a message that is not of 14 bytes, or an array of a wrong length */
    ADDERCOIL_REFUSED_LATE = 2,      /* a time below the table's clock, or a stamp 2^31 or more past the last one */
    ADDERCOIL_REFUSED_PARITY = 3,    /* a parity remainder that is not 0 */
    ADDERCOIL_REFUSED_FORMAT = 4,    /* a DF or CF that is not taken: DF 17 is, and DF 18 with CF 0, 1, 2, 3, 5 */
    ADDERCOIL_REFUSED_TYPE = 5,      /* a TYPE or subtype that is not taken, TYPE 31 under CF 2 or 5, or CF 5 with the
                                        flag of its address set; never of CF 3 */
    ADDERCOIL_REFUSED_FULL = 6,      /* a new aircraft, and no place is free */
    ADDERCOIL_REFUSED_PLACES = 7,    /* a table that is not of 1 to 1,024 whole places */
    ADDERCOIL_REFUSED_FIELD = 8,     /* a field wider than its bits or that no such message has, a latitude beyond a
                                        pole, a choice above 1, a station above 15 */
    ADDERCOIL_REFUSED_LATITUDE = 9,  /* a decoded latitude beyond a pole */
    ADDERCOIL_REFUSED_ZONES = 10,    /* two latitudes in different longitude zones */
    ADDERCOIL_REFUSED_NO_TRACK = 12, /* an aircraft that is not held, and a message that starts no track */
    ADDERCOIL_REFUSED_OVERRUN = 13,  /* a stamp whose time would pass 2^64 - 1 */
    ADDERCOIL_REFUSED_LOG = 14,      /* a log of more than 2,900 records, or not of whole ones, or a capture of more
                                        than 2,900 */
    ADDERCOIL_REFUSED_DEGREES = 15,  /* a double that is no spot's latitude or longitude in degrees */
    ADDERCOIL_REFUSED_FORM = 16,     /* a text that is not in the form of a listing, or two that cannot become one */
    ADDERCOIL_NUMBERS                /* one more than the largest */
};

/*
 * The numbers in words, so that a log can say them: static const char *const words[] = ADDERCOIL_NUMBER_WORDS; then
 * words[number] is what the number means. No call answers 11: addercoil_feed_block counts bad blocks.
 */
#define ADDERCOIL_NUMBER_WORDS                                                  \
    {                                                                           \
        "accepted",                                                             \
        "a message that is not of 14 bytes, or an array of a wrong length",     \
        "a time below the table's clock, or a stamp too far past the last one", \
        "a parity remainder that is not 0",                                     \
        "a DF or CF that is not taken",                                         \
        "a TYPE or subtype that is not taken, or a reserved flag",              \
        "a new aircraft, and no place is free",                                 \
        "a table that is not of 1 to 1,024 whole places",                       \
        "a number out of its range: a field, a latitude, a choice",             \
        "a decoded latitude beyond a pole",                                     \
        "two latitudes in different longitude zones",                           \
        "a block of a capture that fails its rules",                            \
        "an aircraft that is not held, and a message that starts no track",     \
        "a stamp whose time would pass 2^64 - 1",                               \
        "a log or capture of over 2,900 records, or a log not of whole ones",   \
        "a double that is no spot's latitude or longitude in degrees",          \
        "a text that is not in the form of a listing"                           \
    }

/* The kinds of aircraft, in the order of the listing. What they are stands above, under Units. */
enum {
    ADDERCOIL_KIND_I = 1,
    ADDERCOIL_KIND_O = 2,
    ADDERCOIL_KIND_T = 3,
    ADDERCOIL_KIND_M = 4,
    ADDERCOIL_KIND_N = 5,
    ADDERCOIL_KIND_C = 6
};

/*
 * The key of a kind, I to N, with the 24 bits of AA; and of kind C, with the flag, 0 or 1, and the station, 0 to 15.
 * ADDERCOIL_KEY_OF makes no key of ADDERCOIL_KIND_C.
 */
#define ADDERCOIL_KEY_OF(kind, aa) ((uint32_t)(kind) << 24 | ((uint32_t)(aa) & 0xFFFFFFu))
#define ADDERCOIL_KEY_COARSE(aa, flag, station)                       \
    (0x80000000u | ((uint32_t)(aa) & 0xFFFFFFu) << 5 | ((uint32_t)(flag) & 1u) << 4 | ((uint32_t)(station) & 15u))

/*
 * Of any key its kind and AA; of one of kind C also the flag and the station, which are 0 of all others. Each evaluates its
 * argument twice.
 */
#define ADDERCOIL_KEY_IS_COARSE(key) ((uint32_t)(key) >> 31 != 0)
#define ADDERCOIL_KEY_KIND(key) (ADDERCOIL_KEY_IS_COARSE(key) ? (uint32_t)ADDERCOIL_KIND_C : (uint32_t)(key) >> 24)
#define ADDERCOIL_KEY_AA(key) ((ADDERCOIL_KEY_IS_COARSE(key) ? (uint32_t)(key) >> 5 : (uint32_t)(key)) & 0xFFFFFFu)
#define ADDERCOIL_KEY_FLAG(key) (ADDERCOIL_KEY_IS_COARSE(key) ? (uint32_t)(key) >> 4 & 1u : 0u)
#define ADDERCOIL_KEY_STATION(key) (ADDERCOIL_KEY_IS_COARSE(key) ? (uint32_t)(key) & 15u : 0u)

/* ---- The table: tracks in bytes that the caller lends ---- */

/* Bytes of a table of so many places, 1 to 1,024. As a function: addercoil_table_bytes. */
#define ADDERCOIL_TABLE_BYTES(places) (16 + 86 * (addercoil_size)(places))

/* How many bytes a table of so many places has. 0 if it is not 1 to 1,024 places. */
addercoil_size addercoil_table_bytes(addercoil_size places);

/*
 * Empties the table: no track, no site, clock 0. Bytes that never were a table may be handed over.
 * Or ADDERCOIL_REFUSED_PLACES, which leaves the table as it was.
 */
uint32_t addercoil_set_up(uint8_t *table, addercoil_size table_len);

/*
 * The same, with the site of the receiver: surface positions are read against it where the aircraft has no position of
 * its own of the last 120,000 ms.
 * Or ADDERCOIL_REFUSED_PLACES, ADDERCOIL_REFUSED_FIELD for the latitude; each leaves the table as it was.
 */
uint32_t addercoil_set_up_at(uint8_t *table, addercoil_size table_len, int32_t latitude, uint32_t longitude);

/*
 * A message of 14 bytes received at a time: starts or updates its aircraft's track, and moves the clock to the time. A
 * track goes when it was last heard 125,000 ms ago. TYPE 0 starts no track, and of one that is held it updates when it
 * was last heard and, unless the altitude code is 0, the pressure altitude. A track of kind T, M or N is started by a
 * position message alone, of TYPE 5-18 or 20-22. Every coarse message is one, and starts or updates a track of kind C.
 * Or ADDERCOIL_REFUSED_LENGTH, ADDERCOIL_REFUSED_PLACES, ADDERCOIL_REFUSED_LATE, which leave the table as it was;
 * or ADDERCOIL_REFUSED_PARITY, ADDERCOIL_REFUSED_FORMAT, ADDERCOIL_REFUSED_TYPE, and last ADDERCOIL_REFUSED_FULL, or of
 * a message that starts no track ADDERCOIL_REFUSED_NO_TRACK, which move the clock, so that tracks out of date go, and
 * leave the other tracks as they were.
 */
uint32_t addercoil_receive(uint8_t *table, addercoil_size table_len, const uint8_t *message, addercoil_size message_len,
                           uint64_t time);

/* The entries of the state of a clock of 32 bits. Both are 0 at first, and again after each set-up. */
enum {
    ADDERCOIL_STAMP_STARTED,  /* 1 once a stamp was accepted, else 0 */
    ADDERCOIL_STAMP_LAST,     /* the last accepted stamp */
    ADDERCOIL_STAMPS          /* how many there are */
};

/*
 * The same for a receiver that stamps messages with a millisecond counter of 32 bits, which starts again from 0. Until
 * a stamp is accepted, the time is the stamp. Then it is the table's clock and how far the stamp is past the last
 * accepted one, counted around the circle, if that is below 2^31. state has ADDERCOIL_STAMPS entries; a call whose
 * stamp is accepted leaves 1 and the stamp there, and any other leaves them as they were.
 * Or ADDERCOIL_REFUSED_LENGTH for the message or state, ADDERCOIL_REFUSED_PLACES, ADDERCOIL_REFUSED_FIELD for STARTED
 * above 1 or LAST above 2^32 - 1, ADDERCOIL_REFUSED_LATE for a stamp 2^31 or more past the last, or a first one below
 * the clock, ADDERCOIL_REFUSED_OVERRUN, which leave the table and state as they were, so that the stamp is not
 * accepted;
 * or ADDERCOIL_REFUSED_PARITY, ADDERCOIL_REFUSED_FORMAT, ADDERCOIL_REFUSED_TYPE, and last ADDERCOIL_REFUSED_FULL or
 * ADDERCOIL_REFUSED_NO_TRACK, as above, whose stamp is accepted: noise counts as heard.
 */
uint32_t addercoil_receive_stamp(uint8_t *table, addercoil_size table_len, const uint8_t *message,
                                 addercoil_size message_len, uint32_t stamp, uint64_t *state, addercoil_size state_len);

/* The clock: the latest time, into out of 1 entry. Or ADDERCOIL_REFUSED_LENGTH, ADDERCOIL_REFUSED_PLACES. */
uint32_t addercoil_clock(const uint8_t *table, addercoil_size table_len, uint64_t *out, addercoil_size out_len);

/* The entries of addercoil_site. */
enum {
    ADDERCOIL_SITE_KNOWN,     /* 0 or 1 */
    ADDERCOIL_SITE_LATITUDE,  /* signed */
    ADDERCOIL_SITE_LONGITUDE,
    ADDERCOIL_SITE            /* how many there are */
};

/* The site, into out of ADDERCOIL_SITE entries. Or ADDERCOIL_REFUSED_LENGTH, ADDERCOIL_REFUSED_PLACES. */
uint32_t addercoil_site(const uint8_t *table, addercoil_size table_len, uint64_t *out, addercoil_size out_len);

/*
 * The smallest key that is held above the given one, or 0 if there is none, into out of 1 entry. From key 0 on, this
 * walks the table in the order of its keys. Or ADDERCOIL_REFUSED_LENGTH, ADDERCOIL_REFUSED_PLACES.
 */
uint32_t addercoil_next(const uint8_t *table, addercoil_size table_len, uint32_t key, uint64_t *out,
                        addercoil_size out_len);

/*
 * The entries of addercoil_look_up. A reading is two entries: what it is (see ADDERCOIL_KNOWN below), and its value.
 * An ME is the 56 bits of bytes 4 to 10 of a message as one number, byte 4 the highest; addercoil_me reads it. From
 * ADDERCOIL_TRACK_CALLSIGN_IS on stand the readings that are most often shown, each as addercoil_me gives it of the ME
 * that last gave its group, and unknown if none did.
 *
 * The last six say how far a position can be trusted. What the TYPE of a position message says of that depends on the
 * version of the standard that the aircraft is built to: NUC, 0 to 9, in version 0, and NIC, 0 to 11, in versions 1 and
 * 2; more is better, and 0 is a number too. Aircraft say their version in a status message, TYPE 31, and until one is
 * heard it is 0; kinds T, M, N and C are version 1. Up to three bits supplement the TYPE: A (versions 1 and 2) and C
 * (version 2, on the surface) stand in the status, B (version 2, in the air) in the position message. A coarse message
 * has no TYPE, and says nothing of it: of kind C the integrity is unknown.
 *
 * What is said of each entry holds of a table that a set-up made. Of bytes that none made five entries can say more:
 * VELOCITY is any ME under a key of any kind, if its mark says that it is a coarse message; POSITION_TYPE is any number
 * of 5 bits, of kind C too; POSITION_BIT8 and SUPPLEMENT_B can be 1 beside a TYPE of the surface; and ON_GROUND goes by
 * the encoded positions and the ME of the surface, whatever POSITION_TYPE is. No reading is refused for that.
 */
enum {
    ADDERCOIL_TRACK_HELD,                  /* 0 or 1 */
    ADDERCOIL_TRACK_HEARD,                 /* time of its last message */
    ADDERCOIL_TRACK_IDENTIFICATION,        /* ME of its last identification, 0 if it sent none */
    ADDERCOIL_TRACK_VELOCITY,              /* .. velocity; of kind C its last message, which says angle and speed */
    ADDERCOIL_TRACK_SURFACE,               /* .. surface position */
    ADDERCOIL_TRACK_STATUS,                /* .. operational status */
    ADDERCOIL_TRACK_PRESSURE_CODE,         /* 12 bits, 0 unknown */
    ADDERCOIL_TRACK_HEIGHT_CODE,           /* 12 bits, 0 unknown */
    ADDERCOIL_TRACK_POSITION_TYPE,         /* TYPE of its last position message, 0 if it sent none, and of kind C */
    ADDERCOIL_TRACK_POSITION_BIT8,         /* bit 8 of its ME if that was airborne, else 0 */
    ADDERCOIL_TRACK_POSITION_KNOWN,        /* 0 or 1 */
    ADDERCOIL_TRACK_LATITUDE,              /* signed */
    ADDERCOIL_TRACK_LONGITUDE,
    ADDERCOIL_TRACK_POSITION_TIME,         /* when it was heard */
    ADDERCOIL_TRACK_EVEN_KNOWN,            /* the latest even encoded position: 0 or 1 */
    ADDERCOIL_TRACK_EVEN_LATITUDE_COUNT,   /* 17 bits, as of addercoil_encode_position; of kind C 12, as of its twin */
    ADDERCOIL_TRACK_EVEN_LONGITUDE_COUNT,
    ADDERCOIL_TRACK_EVEN_TIME,             /* when it was heard */
    ADDERCOIL_TRACK_ODD_KNOWN,             /* the latest odd one: 0 or 1 */
    ADDERCOIL_TRACK_ODD_LATITUDE_COUNT,
    ADDERCOIL_TRACK_ODD_LONGITUDE_COUNT,
    ADDERCOIL_TRACK_ODD_TIME,
    ADDERCOIL_TRACK_ALTITUDE_IS,           /* pressure altitude: a reading, in feet, signed */
    ADDERCOIL_TRACK_ALTITUDE,
    ADDERCOIL_TRACK_ALTITUDE_STEP_IS,      /* how coarse it is: a reading, 25 or 100 feet, known just when it is */
    ADDERCOIL_TRACK_ALTITUDE_STEP,
    ADDERCOIL_TRACK_GNSS_HEIGHT_IS,        /* GNSS height: a reading, in feet, signed */
    ADDERCOIL_TRACK_GNSS_HEIGHT,
    ADDERCOIL_TRACK_GNSS_HEIGHT_STEP_IS,   /* how coarse that is, likewise */
    ADDERCOIL_TRACK_GNSS_HEIGHT_STEP,
    ADDERCOIL_TRACK_CALLSIGN_IS,           /* eight bytes of ASCII as one number, the first the highest */
    ADDERCOIL_TRACK_CALLSIGN,
    ADDERCOIL_TRACK_CATEGORY_SET_IS,       /* 'A' to 'D' */
    ADDERCOIL_TRACK_CATEGORY_SET,
    ADDERCOIL_TRACK_CATEGORY_IS,           /* 0 to 7 in its set */
    ADDERCOIL_TRACK_CATEGORY,
    ADDERCOIL_TRACK_EAST_IS,               /* velocity over ground, in knots, signed; unknown of one through air; all
                                              from here to RATE_SOURCE is unknown of kind C */
    ADDERCOIL_TRACK_EAST,
    ADDERCOIL_TRACK_NORTH_IS,
    ADDERCOIL_TRACK_NORTH,
    ADDERCOIL_TRACK_HEADING_IS,            /* velocity through air, in 2^-32 of a turn, whatever the status says */
    ADDERCOIL_TRACK_HEADING,
    ADDERCOIL_TRACK_HEADING_STATUS_IS,     /* unknown of a velocity over ground, as the heading */
    ADDERCOIL_TRACK_HEADING_STATUS,        /* 1 if the heading is valid */
    ADDERCOIL_TRACK_AIRSPEED_IS,           /* in knots */
    ADDERCOIL_TRACK_AIRSPEED,
    ADDERCOIL_TRACK_AIRSPEED_KIND_IS,
    ADDERCOIL_TRACK_AIRSPEED_KIND,         /* 0 indicated, 1 true */
    ADDERCOIL_TRACK_RATE_IS,               /* of either velocity, in feet per minute, signed */
    ADDERCOIL_TRACK_RATE,
    ADDERCOIL_TRACK_RATE_SOURCE_IS,        /* unknown of kinds T, M, N and C, which do not send it */
    ADDERCOIL_TRACK_RATE_SOURCE,           /* 0 geometric, 1 barometric */
    ADDERCOIL_TRACK_ON_GROUND_IS,          /* known once there was a position message */
    ADDERCOIL_TRACK_ON_GROUND,             /* 1 if the last one was a surface position, 0 if an airborne one */
    ADDERCOIL_TRACK_MOVEMENT_IS,           /* of the last surface position, in 48ths of a knot, the lower edge */
    ADDERCOIL_TRACK_MOVEMENT,
    ADDERCOIL_TRACK_SURFACE_HEADING_IS,    /* in 2^-32 of a turn, whatever the status says */
    ADDERCOIL_TRACK_SURFACE_HEADING,
    ADDERCOIL_TRACK_SURFACE_STATUS_IS,
    ADDERCOIL_TRACK_SURFACE_STATUS,        /* 1 if that heading is valid */
    ADDERCOIL_TRACK_ANGLE_IS,              /* of kind C: where it goes, in 2^-32 of a turn from true north, clockwise,
                                              whatever the status says; unknown of all others, as the next two */
    ADDERCOIL_TRACK_ANGLE,
    ADDERCOIL_TRACK_ANGLE_STATUS_IS,
    ADDERCOIL_TRACK_ANGLE_STATUS,          /* 1 if that angle is valid */
    ADDERCOIL_TRACK_SPEED_IS,              /* over ground, in knots, the lower edge; over: 1,968 and up */
    ADDERCOIL_TRACK_SPEED,
    ADDERCOIL_TRACK_VERSION,               /* of the standard: 0 to 2, or 3 to 7, which are reserved */
    ADDERCOIL_TRACK_SUPPLEMENT_A,          /* 0 or 1; 0 where the version has none, as the next two */
    ADDERCOIL_TRACK_SUPPLEMENT_B,
    ADDERCOIL_TRACK_SUPPLEMENT_C,
    ADDERCOIL_TRACK_INTEGRITY_IS,          /* of its last position message: ADDERCOIL_INTEGRITY_NUC and so on */
    ADDERCOIL_TRACK_INTEGRITY,             /* NUC or NIC */
    ADDERCOIL_TRACK                        /* how many there are */
};

/*
 * What the integrity of a track is; these are not the numbers of a reading. It is unknown if its kind is C, its version
 * is above 2, or it sent no position message.
 */
enum { ADDERCOIL_INTEGRITY_UNKNOWN = 0, ADDERCOIL_INTEGRITY_NUC = 1, ADDERCOIL_INTEGRITY_NIC = 2 };

/*
 * The track of a key, into out of ADDERCOIL_TRACK entries: all 0 if it is not held. Or ADDERCOIL_REFUSED_LENGTH,
 * ADDERCOIL_REFUSED_PLACES.
 */
uint32_t addercoil_look_up(const uint8_t *table, addercoil_size table_len, uint32_t key, uint64_t *out,
                           addercoil_size out_len);

/* ---- A doubted track: worked out again from a log, without a table ---- */

/* Bytes of a record of a log, and how many records a log may have. */
#define ADDERCOIL_RECORD 22
#define ADDERCOIL_RECORDS 2900

/*
 * The track of one aircraft, by its kind, I to N, and its address, after all that was received. The log is records of
 * ADDERCOIL_RECORD bytes, as a block has them: a time in 8 bytes, high byte first, and a message. It is heard in order,
 * from clock 0, and the clock moves at each record that is not late, whatever its message is. Into out of
 * ADDERCOIL_TRACK entries, as those of addercoil_look_up: all 0 if it is not held. They are those that
 * addercoil_look_up gives after addercoil_set_up and these records received one after the other, unless
 * ADDERCOIL_REFUSED_FULL was answered to a message of this aircraft.
 * Or ADDERCOIL_REFUSED_LENGTH, ADDERCOIL_REFUSED_LOG, ADDERCOIL_REFUSED_FIELD for a kind that is not 1 to 5 or an
 * address above 24 bits.
 */
uint32_t addercoil_replay(const uint8_t *log, addercoil_size log_len, uint32_t kind, uint32_t address, uint64_t *out,
                          addercoil_size out_len);

/*
 * The same after addercoil_set_up_at, with that site.
 * Or ADDERCOIL_REFUSED_LENGTH, ADDERCOIL_REFUSED_LOG, ADDERCOIL_REFUSED_FIELD for a kind that is not 1 to 5, an address
 * above 24 bits or the latitude.
 */
uint32_t addercoil_replay_at(const uint8_t *log, addercoil_size log_len, uint32_t kind, uint32_t address,
                             int32_t latitude, uint32_t longitude, uint64_t *out, addercoil_size out_len);

/*
 * The same of kind C: the track of what one station tells of one address, with the flag of that address. It has no use
 * for a site.
 * Or ADDERCOIL_REFUSED_LENGTH, ADDERCOIL_REFUSED_LOG, ADDERCOIL_REFUSED_FIELD for an address above 24 bits, a flag
 * above 1 or a station above 15.
 */
uint32_t addercoil_replay_coarse(const uint8_t *log, addercoil_size log_len, uint32_t address, uint32_t flag,
                                 uint32_t station, uint64_t *out, addercoil_size out_len);

/*
 * ---- The listing: a header, then a line for each key ----
 *
 * Each call is told which tracks it shows: all is 0 for those with a known position, whatever its age, and 1 for all.
 */

/* Bytes of a buffer for the listing of a table of so many places: 128 for the header, and 128 for each place. */
#define ADDERCOIL_LISTING_BYTES(places) (128 * ((addercoil_size)(places) + 1))

/*
 * The whole listing, the header and then a line for each key in order, into out of ADDERCOIL_LISTING_BYTES(places)
 * bytes, with zeros behind the text: what addercoil_header gives, and addercoil_line for each key that addercoil_next
 * walks. How many bytes the text has goes into written of 1 entry. order has as many entries as the table has places:
 * the keys are sorted there. Do not rely on what a call that answers 0 leaves there. places is what the table's length
 * has room for behind its first 16 bytes, 86 bytes each, whether the table is taken or not. Or ADDERCOIL_REFUSED_LENGTH
 * if any of the three arrays has another length, ADDERCOIL_REFUSED_PLACES, ADDERCOIL_REFUSED_FIELD for all above 1; each
 * leaves all three as they were.
 */
uint32_t addercoil_listing(const uint8_t *table, addercoil_size table_len, uint64_t bad, uint32_t all, uint64_t *order,
                           addercoil_size order_len, uint8_t *out, addercoil_size out_len, uint64_t *written,
                           addercoil_size written_len);

/* Bytes of a buffer for one line: room for 128 of text, and a zero, so that it is always a C string. */
#define ADDERCOIL_LINE 129

/*
 * The listing's first line, "clock C tracks T bad-blocks B" and a newline, then zeros, into out of ADDERCOIL_LINE
 * bytes; T is how many lines the listing has below it, bad is the number B. Or ADDERCOIL_REFUSED_LENGTH,
 * ADDERCOIL_REFUSED_PLACES, ADDERCOIL_REFUSED_FIELD for all above 1.
 */
uint32_t addercoil_header(const uint8_t *table, addercoil_size table_len, uint64_t bad, uint32_t all, uint8_t *out,
                          addercoil_size out_len);

/*
 * The line of a key, "I ABCDEF 1400 536870912 1073741824 10000 25" and a newline, then zeros, into out of
 * ADDERCOIL_LINE bytes: kind I, O, T, M, N or C, AA, last heard, latitude, longitude, pressure altitude and its step,
 * which is 25 or 100; "-" for what is unknown. Of kind C the flag and the station stand behind AA: "C ABCDEF 0 3 1400
 * 536870912 1073741824 10000 25". All zeros, the empty string, if the key is not held or its track is not shown. Or
 * ADDERCOIL_REFUSED_LENGTH, ADDERCOIL_REFUSED_PLACES, ADDERCOIL_REFUSED_FIELD for all above 1.
 */
uint32_t addercoil_line(const uint8_t *table, addercoil_size table_len, uint32_t key, uint32_t all, uint8_t *out,
                        addercoil_size out_len);

/* Bytes of a block of a capture. */
#define ADDERCOIL_BLOCK 512

/*
 * One block of a capture: byte 0 is how many records it has, 1 to 23; bytes 1 and 2 are a serial number that is not
 * looked at; then 23 records of 22 bytes, each a time in 8 bytes, high byte first, and a message, the unused ones zero;
 * then three bytes that make the parity remainder of the whole 0.
 * Each of its records is received, and what is refused of them is passed over. bad is the number of bad blocks before
 * it, and that number after it goes into out of 1 entry; a block that fails its rules, also one that is not of
 * ADDERCOIL_BLOCK bytes, counts one more (never above 2^64 - 1) and leaves the table as it was.
 * Or ADDERCOIL_REFUSED_LENGTH, ADDERCOIL_REFUSED_PLACES, which leave the table as it was.
 */
uint32_t addercoil_feed_block(uint8_t *table, addercoil_size table_len, const uint8_t *block, addercoil_size block_len,
                              uint64_t bad, uint64_t *out, addercoil_size out_len);

/*
 * Another decoder's listing of a capture, checked against ours: 0 for yes, else the number of the first line at fault,
 * into out of 1 entry. Ours is what addercoil_header and addercoil_line give, with 1 for all, of a table of 256 places
 * without a site to which the whole capture was fed, block by block. The header is line 1. Yes if the first line is
 * ours byte for byte, the others are our keys in our order, each once, every latitude and longitude is within one unit
 * of ours, longitude around the circle, or "-" in both, and every other column is equal. A line is compared with ours of
 * the same number; one that is missing or surplus is at fault, and so is a longitude of 2^32 or more, or below 0.
 * The form: each line ends in a newline; words have one space between them; the first line is "clock F tracks F
 * bad-blocks F"; each other is a kind, six of 0-9A-F, and five columns F, or of kind C seven. F is "-", or a decimal of
 * at most 20 digits without leading zeros, with a minus only if it is not 0.
 * Or ADDERCOIL_REFUSED_LENGTH for out, ADDERCOIL_REFUSED_LOG for more than ADDERCOIL_RECORDS records in the good blocks
 * of the capture, ADDERCOIL_REFUSED_FORM. It takes less than 32 KB of the stack.
 */
uint32_t addercoil_check(const uint8_t *capture, addercoil_size capture_len, const uint8_t *listing,
                         addercoil_size listing_len, uint64_t *out, addercoil_size out_len);

/*
 * Two listings as one, for tables side by side: a header with the same clock and the sums of their tracks and of their
 * bad blocks, then the lines of both as they are, in the order of their keys. out has exactly a_len + b_len bytes. The
 * text always fits, and zeros follow it. How many bytes the text has goes into written of 1 entry. More than two are
 * merged one after the other: a is the text so far, and b the next. Or ADDERCOIL_REFUSED_LENGTH if out or written has
 * another length. Or ADDERCOIL_REFUSED_FORM, in each of these cases: a text is not in the form that addercoil_check
 * tells of; a number of a header is "-", below 0 or not below 2^64; the tracks of a header are not as many as its lines;
 * the keys of a text do not rise from line to line; a flag is not 0 or 1, or a station not 0 to 15; the clocks differ; a
 * key is in both; the sum of the bad blocks is not below 2^64. A call that is refused leaves out and written as they
 * were.
 */
uint32_t addercoil_merge(const uint8_t *a, addercoil_size a_len, const uint8_t *b, addercoil_size b_len, uint8_t *out,
                         addercoil_size out_len, uint64_t *written, addercoil_size written_len);

/* ---- Positions ---- */

/* The entries of a spot on the earth, and of its two counts, of 17 bits or, in a coarse message, of 12. */
enum { ADDERCOIL_SPOT_LATITUDE /* signed */, ADDERCOIL_SPOT_LONGITUDE, ADDERCOIL_SPOT /* how many there are */ };
enum { ADDERCOIL_COUNT_LATITUDE, ADDERCOIL_COUNT_LONGITUDE, ADDERCOIL_COUNTS /* how many there are */ };

/*
 * The counts that a message says of a spot, into out of ADDERCOIL_COUNTS entries. surface: 0 airborne, 1 surface. odd:
 * 0 even, 1 odd. Or ADDERCOIL_REFUSED_LENGTH, ADDERCOIL_REFUSED_FIELD for surface or odd above 1 or a latitude beyond a
 * pole.
 */
uint32_t addercoil_encode_position(int32_t latitude, uint32_t longitude, uint32_t surface, uint32_t odd, uint64_t *out,
                                   addercoil_size out_len);

/*
 * The spot of two airborne messages, an even and an odd one, into out of ADDERCOIL_SPOT entries: that of the later one,
 * which is the odd one if later_odd is 1. Or ADDERCOIL_REFUSED_LENGTH, ADDERCOIL_REFUSED_FIELD for a count above
 * 131,071 or later_odd above 1, ADDERCOIL_REFUSED_LATITUDE, ADDERCOIL_REFUSED_ZONES.
 */
uint32_t addercoil_pair(uint32_t even_latitude, uint32_t even_longitude, uint32_t odd_latitude, uint32_t odd_longitude,
                        uint32_t later_odd, uint64_t *out, addercoil_size out_len);

/*
 * The spot of one message near a reference, latitude and longitude, into out of ADDERCOIL_SPOT entries. Or
 * ADDERCOIL_REFUSED_LENGTH, ADDERCOIL_REFUSED_FIELD for a count above 131,071, surface or odd above 1 or a latitude
 * beyond a pole, ADDERCOIL_REFUSED_LATITUDE.
 */
uint32_t addercoil_single(int32_t latitude, uint32_t longitude, uint32_t count_latitude, uint32_t count_longitude,
                          uint32_t surface, uint32_t odd, uint64_t *out, addercoil_size out_len);

/*
 * The same three of coarse messages, which come from the air alone and whose counts are of 12 bits: a count above 4,095
 * is refused as one above 131,071 is above. Coarse and fine counts make no pair.
 */
uint32_t addercoil_encode_position_coarse(int32_t latitude, uint32_t longitude, uint32_t odd, uint64_t *out,
                                          addercoil_size out_len);
uint32_t addercoil_pair_coarse(uint32_t even_latitude, uint32_t even_longitude, uint32_t odd_latitude,
                               uint32_t odd_longitude, uint32_t later_odd, uint64_t *out, addercoil_size out_len);
uint32_t addercoil_single_coarse(int32_t latitude, uint32_t longitude, uint32_t count_latitude,
                                 uint32_t count_longitude, uint32_t odd, uint64_t *out, addercoil_size out_len);

/* The entries of a spot in degrees. */
enum { ADDERCOIL_DEGREES_LATITUDE, ADDERCOIL_DEGREES_LONGITUDE, ADDERCOIL_DEGREES /* how many there are */ };

/*
 * A spot in degrees, into out of ADDERCOIL_DEGREES doubles: each is exactly the whole number times 360 over 2^32, and
 * nothing is rounded. Longitude is from -180, which is 2^31, up to below 180. Different spots have different doubles,
 * and zero is positive zero. Or ADDERCOIL_REFUSED_LENGTH, ADDERCOIL_REFUSED_FIELD for a latitude beyond a pole.
 */
uint32_t addercoil_degrees(int32_t latitude, uint32_t longitude, double *out, addercoil_size out_len);

/*
 * Back: the spot that two doubles exactly are, into out of ADDERCOIL_SPOT entries. Any other double is refused and not
 * rounded: 180.0, a latitude beyond a pole, as a rule what was typed in decimal, not-a-number, infinities, minus zero.
 * Or ADDERCOIL_REFUSED_LENGTH, ADDERCOIL_REFUSED_DEGREES.
 */
uint32_t addercoil_from_degrees(double latitude, double longitude, uint64_t *out, addercoil_size out_len);

/* ---- Messages ---- */

/* Bytes of a message. */
#define ADDERCOIL_MESSAGE 14

/* What a reading is. Its value stands in the next entry, and is 0 where nothing else is said. */
enum {
    ADDERCOIL_UNKNOWN = 0,
    ADDERCOIL_KNOWN = 1,
    ADDERCOIL_OVER = 2,    /* above what the code can say; of a movement and a coarse speed where that begins */
    ADDERCOIL_NONE = 3,    /* a reserved code */
    ADDERCOIL_STOPPED = 4  /* of a surface movement */
};

/* The layouts, in entry 0 of the fields. */
enum {
    ADDERCOIL_LAYOUT_IDENTIFICATION = 1,  /* TYPE 1-4 */
    ADDERCOIL_LAYOUT_SURFACE = 2,         /* TYPE 5-8 */
    ADDERCOIL_LAYOUT_AIRBORNE = 3,        /* TYPE 9-18 and 20-22; TYPE 0, whose F and counts mean nothing */
    ADDERCOIL_LAYOUT_GROUND = 4,          /* TYPE 19, subtypes 1 and 2: velocity over ground */
    ADDERCOIL_LAYOUT_AIR = 5,             /* TYPE 19, subtypes 3 and 4: velocity through air */
    ADDERCOIL_LAYOUT_STATUS = 6,          /* TYPE 31, subtypes 0 and 1: operational status, of DF 17, CF 0 and CF 1 */
    ADDERCOIL_LAYOUT_COARSE = 7           /* DF 18 with CF 3, whatever the bits of ME, which has no TYPE */
};

/* How many entries the fields of a message have. */
#define ADDERCOIL_FIELDS 28

/* The first six entries, alike in all layouts, but that a coarse message has no TYPE. */
enum {
    ADDERCOIL_LAYOUT = 0,
    ADDERCOIL_DF = 1,       /* 17 or 18 */
    ADDERCOIL_CA = 2,       /* 3 bits: CA of DF 17; CF of DF 18, which is 0, 1, 2, 3 or 5 */
    ADDERCOIL_AA = 3,       /* 24 bits: the address; of kind M, and of C with the flag, the Mode A code, then the track
                               number */
    ADDERCOIL_KEY = 4,      /* the encoder does not read it */
    ADDERCOIL_TYPECODE = 5  /* 5 bits: TYPE, one of those of the layout */
};

/*
 * From entry 5 on the fields of ME in the order of their bits, each with how many bits it has, 1 bit where nothing is
 * said; from entry 20 on readings, which say what the codes mean, and which the encoder does not read.
 *
 * Under DF 18 with CF 2 or 5, a ground station's traffic service, the same bits stand under the same names, and some
 * mean something else:
 *   - SURFACE_T, AIRBORNE_BIT8, GROUND_BIT9 and AIR_BIT9 are the flag of the address. Under CF 2 the kind is T if it is
 *     0, and M if it is 1; under CF 5 it is N if it is 0, and 1 is reserved. An identification has none: that counts as
 *     0. There is no status.
 *   - Of a velocity NACp is 8 * BIT10 + NACV, and VERTICAL_SOURCE is the GEO flag. If that is 1, the height difference
 *     is as elsewhere. If it is 0, there is none, and its reading is unknown: of ME bits 47 to 56, which stand in
 *     VERTICAL_RESERVED (2 bits), _BELOW (1) and _DIFFERENCE_CODE (7), 48-50 are then NACv, 51-52 SIL and, through air,
 *     55 whether the heading is true or magnetic. Bit 47 is the NIC supplement either way. Which source the vertical
 *     rate has is not sent.
 */
enum {
    ADDERCOIL_IDENTIFICATION_CATEGORY = 6,    /* 3 bits */
    ADDERCOIL_IDENTIFICATION_CHARACTERS = 7,  /* eight of 6 bits: 1-26 A-Z, 32 space, 48-57 0-9, others "?" */
    ADDERCOIL_IDENTIFICATION_SET_IS = 20,     /* category set: 'A' to 'D' */
    ADDERCOIL_IDENTIFICATION_SET = 21,
    ADDERCOIL_IDENTIFICATION_TEXT_IS = 22,    /* eight bytes of ASCII as one number, the first the highest */
    ADDERCOIL_IDENTIFICATION_TEXT = 23
};
enum {
    ADDERCOIL_SURFACE_MOVEMENT_CODE = 6,     /* 7 bits: 0 unknown, 1 stopped, 2-123 rising speeds, 124 over */
    ADDERCOIL_SURFACE_STATUS = 7,            /* 1 if the heading is valid */
    ADDERCOIL_SURFACE_HEADING_CODE = 8,      /* 7 bits: 128ths of a turn */
    ADDERCOIL_SURFACE_T = 9,                 /* 1 if its time is tied to UTC; under CF 2 and 5 the address flag */
    ADDERCOIL_SURFACE_F = 10,                /* 0 even, 1 odd */
    ADDERCOIL_SURFACE_LATITUDE_COUNT = 11,   /* 17 bits, as of addercoil_encode_position */
    ADDERCOIL_SURFACE_LONGITUDE_COUNT = 12,  /* 17 bits */
    ADDERCOIL_SURFACE_SPEED_IS = 20,         /* 48ths of a knot, the lower edge */
    ADDERCOIL_SURFACE_SPEED = 21,
    ADDERCOIL_SURFACE_TURN_IS = 22,          /* heading in 2^-32 of a turn, whatever the status says */
    ADDERCOIL_SURFACE_TURN = 23
};
enum {
    ADDERCOIL_AIRBORNE_SURVEILLANCE = 6,      /* 2 bits */
    ADDERCOIL_AIRBORNE_BIT8 = 7,              /* under CF 2 and 5 the flag of the address; in version 2 supplement B */
    ADDERCOIL_AIRBORNE_ALTITUDE_CODE = 8,     /* 12 bits: 0 unknown; if 16 is set, N of the others is 25 N - 1,000 ft */
    ADDERCOIL_AIRBORNE_T = 9,                 /* 1 if its time is tied to UTC */
    ADDERCOIL_AIRBORNE_F = 10,                /* 0 even, 1 odd */
    ADDERCOIL_AIRBORNE_LATITUDE_COUNT = 11,   /* 17 bits, as of addercoil_encode_position */
    ADDERCOIL_AIRBORNE_LONGITUDE_COUNT = 12,  /* 17 bits */
    ADDERCOIL_AIRBORNE_ALTITUDE_IS = 20,      /* feet, signed */
    ADDERCOIL_AIRBORNE_ALTITUDE = 21,
    ADDERCOIL_AIRBORNE_GNSS_IS = 22,          /* always known: 1 if the altitude is a GNSS height, 0 if by pressure */
    ADDERCOIL_AIRBORNE_GNSS = 23,
    ADDERCOIL_AIRBORNE_STEP_IS = 24,          /* how coarse that is, in feet: 25 or 100, known just when it is */
    ADDERCOIL_AIRBORNE_STEP = 25
};
enum {
    ADDERCOIL_GROUND_SUBTYPE = 6,          /* 3 bits: 1, or 2 for speeds in 4 knots */
    ADDERCOIL_GROUND_BIT9 = 7,             /* under CF 2 and 5 the flag of the address */
    ADDERCOIL_GROUND_BIT10 = 8,            /* under CF 2 and 5 the first bit of NACp */
    ADDERCOIL_GROUND_NACV = 9,             /* 3 bits; under CF 2 and 5 the other three of NACp */
    ADDERCOIL_GROUND_WEST = 10,            /* 1 if the next is to the west */
    ADDERCOIL_GROUND_EASTWARD_CODE = 11,   /* 10 bits: 0 unknown, n is n - 1 knots, 1023 over */
    ADDERCOIL_GROUND_SOUTH = 12,           /* 1 if the next is to the south */
    ADDERCOIL_GROUND_NORTHWARD_CODE = 13,  /* 10 bits: likewise */
    ADDERCOIL_GROUND_EAST_IS = 20,         /* knots, signed: west is below zero */
    ADDERCOIL_GROUND_EAST = 21,
    ADDERCOIL_GROUND_NORTH_IS = 22,        /* knots, signed: south is below zero */
    ADDERCOIL_GROUND_NORTH = 23
};
enum {
    ADDERCOIL_AIR_SUBTYPE = 6,         /* 3 bits: 3, or 4 for a speed in 4 knots */
    ADDERCOIL_AIR_BIT9 = 7,            /* under CF 2 and 5 the flag of the address */
    ADDERCOIL_AIR_BIT10 = 8,           /* under CF 2 and 5 the first bit of NACp */
    ADDERCOIL_AIR_NACV = 9,            /* 3 bits; under CF 2 and 5 the other three of NACp */
    ADDERCOIL_AIR_STATUS = 10,         /* 1 if the heading is valid */
    ADDERCOIL_AIR_HEADING_CODE = 11,   /* 10 bits: 1,024ths of a turn */
    ADDERCOIL_AIR_AIRSPEED_KIND = 12,  /* 0 indicated, 1 true */
    ADDERCOIL_AIR_AIRSPEED_CODE = 13,  /* 10 bits: 0 unknown, n is n - 1 knots, 1023 over */
    ADDERCOIL_AIR_TURN_IS = 20,        /* heading in 2^-32 of a turn, whatever the status says */
    ADDERCOIL_AIR_TURN = 21,
    ADDERCOIL_AIR_SPEED_IS = 22,       /* knots */
    ADDERCOIL_AIR_SPEED = 23
};
/* Both velocities end alike. */
enum {
    ADDERCOIL_VERTICAL_SOURCE = 14,           /* 0 geometric, 1 barometric; under CF 2 and 5 the GEO flag: see above */
    ADDERCOIL_VERTICAL_DOWN = 15,             /* 1 if the rate is downwards */
    ADDERCOIL_VERTICAL_RATE_CODE = 16,        /* 9 bits: 0 unknown, n is 64 (n - 1) feet per minute, 511 over */
    ADDERCOIL_VERTICAL_RESERVED = 17,         /* 2 bits */
    ADDERCOIL_VERTICAL_BELOW = 18,            /* 1 if the GNSS height is below the pressure altitude */
    ADDERCOIL_VERTICAL_DIFFERENCE_CODE = 19,  /* 7 bits: 0 unknown, n is 25 (n - 1) feet, 127 over */
    ADDERCOIL_VERTICAL_RATE_IS = 24,          /* feet per minute, signed: down is below zero */
    ADDERCOIL_VERTICAL_RATE = 25,
    ADDERCOIL_VERTICAL_DIFFERENCE_IS = 26,    /* feet, signed: GNSS height less pressure altitude; see the GEO flag */
    ADDERCOIL_VERTICAL_DIFFERENCE = 27
};
enum {
    ADDERCOIL_STATUS_SUBTYPE = 6,             /* 3 bits: 0 in the air, 1 on the surface */
    ADDERCOIL_STATUS_CLASS = 7,               /* 11 bits: capability class */
    ADDERCOIL_STATUS_BIT20 = 8,               /* of subtype 1 supplement C; of subtype 0 of the class, as the next */
    ADDERCOIL_STATUS_WIDTH = 9,               /* 4 bits: of subtype 1 length and width */
    ADDERCOIL_STATUS_MODE = 10,               /* 16 bits: operational mode */
    ADDERCOIL_STATUS_VERSION_CODE = 11,       /* 3 bits: 0 to 2; 3 to 7 are reserved */
    ADDERCOIL_STATUS_SUPPLEMENT_A_CODE = 12,
    ADDERCOIL_STATUS_NACP = 13,               /* 4 bits */
    ADDERCOIL_STATUS_BITS49 = 14,             /* 2 bits */
    ADDERCOIL_STATUS_SIL = 15,                /* 2 bits */
    ADDERCOIL_STATUS_BIT53 = 16,
    ADDERCOIL_STATUS_BIT54 = 17,
    ADDERCOIL_STATUS_BITS55 = 18,             /* 2 bits */
    ADDERCOIL_STATUS_VERSION_IS = 20,         /* known for 0 to 2, else ADDERCOIL_NONE */
    ADDERCOIL_STATUS_VERSION = 21,
    ADDERCOIL_STATUS_SUPPLEMENT_A_IS = 22,    /* 0 or 1: known in versions 1 and 2, else unknown */
    ADDERCOIL_STATUS_SUPPLEMENT_A = 23,
    ADDERCOIL_STATUS_SUPPLEMENT_C_IS = 24,    /* 0 or 1: known in version 2, 0 there in subtype 0 */
    ADDERCOIL_STATUS_SUPPLEMENT_C = 25
};
/* What a ground station's traffic service sends coarsely: one message says it all, and there is no TYPE. */
enum {
    ADDERCOIL_COARSE_FLAG = 5,              /* of the address: 0 ICAO, 1 a Mode A code, then a track number */
    ADDERCOIL_COARSE_SURVEILLANCE = 6,      /* 2 bits */
    ADDERCOIL_COARSE_STATION = 7,           /* 4 bits: which station sends it */
    ADDERCOIL_COARSE_ALTITUDE_CODE = 8,     /* 12 bits: pressure altitude, as ADDERCOIL_AIRBORNE_ALTITUDE_CODE */
    ADDERCOIL_COARSE_STATUS = 9,            /* 1 if the angle is valid */
    ADDERCOIL_COARSE_ANGLE_CODE = 10,       /* 5 bits: 32nds of a turn */
    ADDERCOIL_COARSE_SPEED_CODE = 11,       /* 6 bits: 0 unknown, 1 below 16 knots, n 32 n - 48 and up, 63 over */
    ADDERCOIL_COARSE_F = 12,                /* 0 even, 1 odd */
    ADDERCOIL_COARSE_LATITUDE_COUNT = 13,   /* 12 bits, as of addercoil_encode_position_coarse */
    ADDERCOIL_COARSE_LONGITUDE_COUNT = 14,  /* 12 bits */
    ADDERCOIL_COARSE_ALTITUDE_IS = 20,      /* feet, signed */
    ADDERCOIL_COARSE_ALTITUDE = 21,
    ADDERCOIL_COARSE_STEP_IS = 22,          /* how coarse that is, in feet: 25 or 100, known just when it is */
    ADDERCOIL_COARSE_STEP = 23,
    ADDERCOIL_COARSE_ANGLE_IS = 24,         /* track angle in 2^-32 of a turn, whatever the status says */
    ADDERCOIL_COARSE_ANGLE = 25,
    ADDERCOIL_COARSE_SPEED_IS = 26,         /* knots over ground, the lower edge; over: 1,968 and up */
    ADDERCOIL_COARSE_SPEED = 27
};

/*
 * What a message of ADDERCOIL_MESSAGE bytes says, into fields of ADDERCOIL_FIELDS entries. Or ADDERCOIL_REFUSED_LENGTH,
 * ADDERCOIL_REFUSED_PARITY, ADDERCOIL_REFUSED_FORMAT, ADDERCOIL_REFUSED_TYPE.
 */
uint32_t addercoil_decode(const uint8_t *message, addercoil_size message_len, uint64_t *fields,
                          addercoil_size fields_len);

/*
 * The key of a message of ADDERCOIL_MESSAGE bytes, under which addercoil_receive keeps its track, into out of 1 entry:
 * by it messages are dealt out to several tables, or logged by aircraft. A message has a key even if a table would
 * answer 6 or 12 to it. Or ADDERCOIL_REFUSED_LENGTH, ADDERCOIL_REFUSED_PARITY, ADDERCOIL_REFUSED_FORMAT,
 * ADDERCOIL_REFUSED_TYPE.
 */
uint32_t addercoil_key(const uint8_t *message, addercoil_size message_len, uint64_t *out, addercoil_size out_len);

/*
 * What an ME says, as ADDERCOIL_TRACK_IDENTIFICATION, _VELOCITY, _SURFACE and _STATUS have it, into fields of
 * ADDERCOIL_FIELDS entries, as addercoil_decode gives them; what stands before ME, which are entries 1 to 4, is 0. key
 * is that of the track: its kind tells what the height difference means and, if it is C, that the ME is a coarse one,
 * whatever its bits; no more of it is asked. An ME of 0, which a track has where it heard none, reads as TYPE 0, and of
 * kind C as a coarse message: look at the ME first. Of kind C ask for ADDERCOIL_TRACK_VELOCITY alone, which is always
 * there, even if it is 0. Or ADDERCOIL_REFUSED_LENGTH, ADDERCOIL_REFUSED_FIELD for an ME of more than 56 bits or what is
 * no key, ADDERCOIL_REFUSED_TYPE, which kind C never earns.
 */
uint32_t addercoil_me(uint64_t me, uint32_t key, uint64_t *fields, addercoil_size fields_len);

/*
 * The message that says the fields, its parity included, into message of ADDERCOIL_MESSAGE bytes. It reads the layout,
 * DF, CA or CF, AA and the fields of ME of that layout, and no other entry. Or ADDERCOIL_REFUSED_LENGTH for either
 * array, ADDERCOIL_REFUSED_FIELD for a layout that is not 1 to 7, a field wider than its bits, fields that
 * addercoil_decode would refuse, or layout 7 without CF 3 of DF 18, or CF 3 with another layout; each leaves message as
 * it was.
 */
uint32_t addercoil_encode(const uint64_t *fields, addercoil_size fields_len, uint8_t *message,
                          addercoil_size message_len);

#ifdef __cplusplus
}
#endif

#endif
