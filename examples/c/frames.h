/* The frames of a stream of RTCM 3 that is read from a file, a serial port or a pipe, for the examples: each is there as soon as
 * its last byte has come. */
#ifndef FRAMES_H
#define FRAMES_H

#include <unistd.h>

#include "navbridge.h"

typedef struct frames {
    int from; /* what is read: a file's number, as STDIN_FILENO */
    int is_ended;
    nb_deframer deframer;
    uint8_t bytes[4096];
    size_t at, end; /* those of the bytes that were not fed */
    uint8_t frame[NB_FRAME_MOST];
} frames;

static void frames_begin(frames *it, int from) {
    it->from = from;
    it->is_ended = 0;
    it->at = it->end = 0;
    nb_deframer_init(&it->deframer);
}

/* The size of the next frame, which stands in it->frame; 0 at the end. */
static size_t frames_next(frames *it) {
    for (;;) {
        size_t size = nb_deframer_next(&it->deframer, it->frame, sizeof it->frame);
        if (size > 0 || it->is_ended) return size;
        if (it->at == it->end) {
            ssize_t got = read(it->from, it->bytes, sizeof it->bytes);
            it->at = 0;
            it->end = got > 0 ? (size_t)got : 0;
            it->is_ended = got <= 0;
            if (it->is_ended) nb_deframer_finish(&it->deframer);
        }
        it->at += nb_deframer_feed(&it->deframer, it->bytes + it->at, it->end - it->at);
    }
}

#endif
