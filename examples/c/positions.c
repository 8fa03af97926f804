/* RTKLIB's ephemeris of each ephemeris in a stream of RTCM 3 on standard input, and where RTKLIB's eph2pos puts the satellite at
 * the time of the ephemeris: a line of satellite, week and second, x, y and z in km, and the clock's bias in microseconds. Its one
 * word is a week near that of the stream. */
#include "rtklib_asks.h"

#include "navbridge_rtklib.h"

#include <stdio.h>
#include <stdlib.h>

#include "frames.h"

static int line(const nb_item *item) {
    double at[3], clock, variance;
    eph_t eph;
    if (!nb_rtklib_of_item(item, &eph)) return 0;
    eph2pos(eph.toe, &eph, at, &clock, &variance);
    printf("%c%02u %d %.0f %.6f %.6f %.6f %.6f\n", item->kind == NB_GPS ? 'G' : 'E',
           (unsigned)(item->kind == NB_GPS ? item->gps.satellite : item->gal.satellite), eph.week, eph.toes, at[0] / 1000,
           at[1] / 1000, at[2] / 1000, clock * 1e6);
    return fflush(stdout);
}

int main(int argc, char **argv) {
    static frames in;
    size_t size;
    uint32_t week = argc == 2 ? (uint32_t)strtoul(argv[1], NULL, 10) : 0;
    if (nb_version() != NB_VERSION || week < 1024 || week > 8191) {
        fprintf(stderr, "usage: positions WEEK < STREAM, the week 1024 to 8191\n");
        return 2;
    }
    frames_begin(&in, STDIN_FILENO);
    while ((size = frames_next(&in)) > 0) {
        nb_item item;
        if (nb_frame_read(in.frame, size, week, &item) == NB_OK && line(&item) != 0) return 4;
    }
    return 0;
}
