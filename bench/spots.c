/*
 * A position by itself: spots MODE COUNT. bench/run builds it and counts it.
 *
 * 400 random places are encoded even and odd, in the air and on the surface by turns; for a pair in the air alone. With
 * the first COUNT of them the mode is done, which is told by its first letter:
 *   encode  the place is encoded once more
 *   pair    its two messages are paired
 *   single  one of its messages is read near it
 */
#include <addercoil.h>
#include <stdlib.h>

#define PLACES 400
#define POLE 1073741824

static uint32_t random_32(void) {
    static uint64_t state = 1090;
    state = state * 6364136223846793005u + 1442695040888963407u;
    return (uint32_t)(state >> 32);
}

int main(int argc, char **argv) {
    const char mode = argc == 3 ? argv[1][0] : ' ';
    const int count = argc == 3 ? atoi(argv[2]) : 0;
    for (int i = 0; i < PLACES; i++) {
        const int32_t latitude = (int32_t)(random_32() % (2u * POLE + 1)) - POLE;
        const uint32_t longitude = random_32(), surface = mode == 'p' ? 0 : i & 1, odd = i >> 1 & 1;
        uint64_t counts[2][ADDERCOIL_COUNTS], out[ADDERCOIL_SPOT];
        uint32_t number = ADDERCOIL_OK;
        for (uint32_t f = 0; f < 2; f++)
            number |= addercoil_encode_position(latitude, longitude, surface, f, counts[f], ADDERCOIL_COUNTS);
        if (number != ADDERCOIL_OK)
            return 1;
        if (i >= count)
            continue;
        if (mode == 'e')
            number = addercoil_encode_position(latitude, longitude, surface, odd, out, ADDERCOIL_COUNTS);
        if (mode == 'p')
            number = addercoil_pair((uint32_t)counts[0][0], (uint32_t)counts[0][1], (uint32_t)counts[1][0],
                                    (uint32_t)counts[1][1], odd, out, ADDERCOIL_SPOT);
        if (mode == 's')
            number = addercoil_single(latitude, longitude, (uint32_t)counts[odd][0], (uint32_t)counts[odd][1], surface,
                                      odd, out, ADDERCOIL_SPOT);
        if (number != ADDERCOIL_OK &&
            number != ADDERCOIL_REFUSED_ZONES) /* the latitudes of a pair may lie in different zones */
            return 1;
    }
    return 0;
}
