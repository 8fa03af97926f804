/* A loop over a receiver's log, a serial port or a pipe: for each ephemeris of a stream of RTCM 3 on standard input a line on
 * standard output, as soon as its frame is there: satellite, issue of data, week and second of toe, semi-major axis, eccentricity
 * and inclination. Its one word is a week near that of the stream.
 *
 *   stty -F /dev/ttyUSB0 115200 raw && listen 2295 < /dev/ttyUSB0
 */
#include <stdio.h>
#include <stdlib.h>

#include "frames.h"

static int line(const nb_item *item) {
    const nb_gps *g = &item->gps;
    const nb_gal *e = &item->gal;
    int is_gps = item->kind == NB_GPS;
    nb_orbit orbit = is_gps ? nb_orbit_of_gps(g) : nb_orbit_of_gal(e);
    printf("%c%02u issue %u toe %u %.0f semi-major axis %.3f km eccentricity %.6f inclination %.4f deg\n", is_gps ? 'G' : 'E',
           (unsigned)(is_gps ? g->satellite : e->satellite), (unsigned)(is_gps ? g->a.iode : e->w1.iodnav),
           (unsigned)(is_gps ? g->toe_week : e->toe_week), orbit.toe, orbit.root_a * orbit.root_a / 1000, orbit.e,
           orbit.i0 / NB_PI * 180);
    return fflush(stdout);
}

int main(int argc, char **argv) {
    static frames in;
    size_t size;
    uint32_t week = argc == 2 ? (uint32_t)strtoul(argv[1], NULL, 10) : 0;
    if (nb_version() != NB_VERSION || week < 1024 || week > 8191) {
        fprintf(stderr, "usage: listen WEEK < STREAM, the week 1024 to 8191\n");
        return 2;
    }
    frames_begin(&in, STDIN_FILENO);
    while ((size = frames_next(&in)) > 0) {
        nb_item item;
        if (nb_frame_read(in.frame, size, week, &item) == NB_OK && line(&item) != 0) return 4;
    }
    return 0;
}
