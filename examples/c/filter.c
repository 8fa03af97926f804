/* A caster's filter: passes the frames of a stream of RTCM 3 from standard input to standard output, but no frame of message
 * 1019 or 1046 that stands for no ephemeris, whose reason it prints, and nothing that is no frame. Its one word is a week near that
 * of the stream. */
#include <stdio.h>
#include <stdlib.h>

#include "frames.h"

int main(int argc, char **argv) {
    static frames in;
    size_t size, passed = 0, dropped = 0;
    uint32_t week = argc == 2 ? (uint32_t)strtoul(argv[1], NULL, 10) : 0;
    if (nb_version() != NB_VERSION || week < 1024 || week > 8191) {
        fprintf(stderr, "usage: filter WEEK < STREAM, the week 1024 to 8191\n");
        return 2;
    }
    frames_begin(&in, STDIN_FILENO);
    while ((size = frames_next(&in)) > 0) {
        nb_item item;
        const nb_status status = nb_frame_read(in.frame, size, week, &item);
        if (status == NB_OK || status == NB_OTHER_MESSAGE || status == NB_NO_NUMBER) {
            if (fwrite(in.frame, 1, size, stdout) < size || fflush(stdout) != 0) return 4;
            passed++;
        } else {
            fprintf(stderr, "dropped: %s\n", nb_status_text(status));
            dropped++;
        }
    }
    fprintf(stderr, "passed %lu\ndropped %lu\n", (unsigned long)passed, (unsigned long)dropped);
    return 0;
}
