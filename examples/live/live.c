/* A live stream of RTCM 3 on standard input, as of a serial port, a pipe or str2str: for each ephemeris, as soon as its frame is complete, a
 * line on standard error and its RINEX record on standard output. Its argument is a week near that of the stream; without it, that of the clock.
 *
 *   cc -o live live.c $(pkg-config --cflags --libs navbridge)
 */
#include <stdio.h>
#include <stdlib.h>
#include <time.h>
#include <unistd.h>

#include <navbridge.h>

static int put(const uint8_t *text, size_t size) { return fwrite(text, 1, size, stdout) == size && fflush(stdout) == 0; }

static int use(const uint8_t *frame, size_t size, uint32_t week) {
    nb_item item;
    uint8_t record[1024];
    size_t used;
    nb_status status = nb_frame_read(frame, size, week, &item);
    if (status == NB_NO_NUMBER || status == NB_OTHER_MESSAGE) return 1;
    if (status != NB_OK) return fprintf(stderr, "rejected: %s\n", nb_status_text(status)) > 0;
    if (item.kind == NB_GPS) {
        nb_orbit orbit = nb_orbit_of_gps(&item.gps);
        fprintf(stderr, "G%02u toe %.0f e %.9f\n", (unsigned)item.gps.satellite, orbit.toe, orbit.e);
    } else {
        nb_orbit orbit = nb_orbit_of_gal(&item.gal);
        fprintf(stderr, "E%02u toe %.0f e %.9f\n", (unsigned)item.gal.satellite, orbit.toe, orbit.e);
    }
    return nb_record_write(&item, 4, record, sizeof record, &used) == NB_OK && put(record, used);
}

int main(int argc, char **argv) {
    static nb_deframer deframer;
    static uint8_t bytes[4096], frame[NB_FRAME_MOST];
    nb_header header;
    char date[20];
    time_t now = time(NULL);
    uint32_t week = argc > 1 ? (uint32_t)strtoul(argv[1], NULL, 10) : nb_week_of_unix((uint64_t)now);
    size_t size, i;

    strftime(date, sizeof date, "%Y%m%d %H%M%S UTC", gmtime(&now));
    for (i = 0; i < sizeof header.date; i++) header.date[i] = (uint8_t)date[i];
    header.leap = 18;
    if (nb_header_write(&header, 4, bytes, sizeof bytes, &size) != NB_OK || !put(bytes, size)) return 1;

    nb_deframer_init(&deframer);
    for (;;) {
        ssize_t got = read(STDIN_FILENO, bytes, sizeof bytes);
        size_t n = got > 0 ? (size_t)got : 0, at = 0;
        if (n == 0) nb_deframer_finish(&deframer);
        do {
            at += nb_deframer_feed(&deframer, bytes + at, n - at);
            while ((size = nb_deframer_next(&deframer, frame, sizeof frame)) > 0)
                if (!use(frame, size, week)) return 1;
        } while (at < n);
        if (n == 0) return 0;
    }
}
