/*
 * Speed, direction and site by addercoil_easy.h, of a track's entries, as functions of a shared library:
 * reference/run_python.py holds them to the model.
 */
#include <addercoil_easy.h>

static struct addercoil_track track_of(const uint64_t *row) {
    struct addercoil_track track;
    addercoil_easy_to_track(ADDERCOIL_OK, row, &track);
    return track;
}

uint32_t ground_speed(const uint64_t *row, double *knots) {
    struct addercoil_track track = track_of(row);
    return addercoil_easy_speed(&track, knots);
}

uint32_t ground_direction(const uint64_t *row, double *degrees) {
    struct addercoil_track track = track_of(row);
    return addercoil_easy_direction(&track, degrees);
}

uint32_t ground_site(double latitude, double longitude, int32_t *north, uint32_t *east) {
    struct addercoil_degrees degrees = {latitude, longitude};
    struct addercoil_spot spot = {*north, *east};
    uint32_t number = addercoil_easy_site_in_degrees(degrees, &spot);
    *north = spot.latitude;
    *east = spot.longitude;
    return number;
}
