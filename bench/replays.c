/*
 * A record of a replay: replays MODE COUNT. bench/run builds it and counts it.
 *
 * A log of airborne positions, even and odd by turns, 300 ms apart. Its first record and COUNT more are replayed for
 * one aircraft. The mode is told by its first letter:
 *   own       each is the aircraft's
 *   held      the first is, the others are a stranger's
 *   stranger  all are a stranger's
 */
#include <addercoil.h>
#include <stdlib.h>

#define RECORDS 401

static uint8_t log_of[RECORDS * ADDERCOIL_RECORD];

/* An airborne position of an aircraft. */
static uint32_t message(uint8_t *out, uint32_t aa, uint32_t odd) {
    uint64_t fields[ADDERCOIL_FIELDS] = {0}, counts[ADDERCOIL_COUNTS];
    addercoil_encode_position(620000000, 53687091, 0, odd, counts, ADDERCOIL_COUNTS);
    fields[ADDERCOIL_LAYOUT] = ADDERCOIL_LAYOUT_AIRBORNE;
    fields[ADDERCOIL_DF] = 17;
    fields[ADDERCOIL_CA] = 5;
    fields[ADDERCOIL_AA] = aa;
    fields[ADDERCOIL_TYPECODE] = 11;
    fields[ADDERCOIL_AIRBORNE_ALTITUDE_CODE] = 888;
    fields[ADDERCOIL_AIRBORNE_F] = odd;
    fields[ADDERCOIL_AIRBORNE_LATITUDE_COUNT] = counts[0];
    fields[ADDERCOIL_AIRBORNE_LONGITUDE_COUNT] = counts[1];
    return addercoil_encode(fields, ADDERCOIL_FIELDS, out, ADDERCOIL_MESSAGE);
}

int main(int argc, char **argv) {
    const char mode = argc == 3 ? argv[1][0] : ' ';
    const size_t count = argc == 3 ? (size_t)atoi(argv[2]) : 0;
    uint64_t track[ADDERCOIL_TRACK];
    uint32_t number = ADDERCOIL_OK;
    for (uint32_t i = 0; i < RECORDS; i++) {
        uint8_t *record = log_of + ADDERCOIL_RECORD * i;
        const uint32_t time = 1000 + 300 * i, aa = mode == 'o' || (i == 0 && mode == 'h') ? 0xABCDEF : 0x4840D6;
        record[5] = (uint8_t)(time >> 16);
        record[6] = (uint8_t)(time >> 8);
        record[7] = (uint8_t)time;
        number |= message(record + 8, aa, i & 1);
    }
    number |= addercoil_replay(log_of, ADDERCOIL_RECORD * (count + 1), 1, 0xABCDEF, track, ADDERCOIL_TRACK);
    return number != ADDERCOIL_OK || track[ADDERCOIL_TRACK_HELD] != (mode != 's');
}
