/* Finds the frames of a stream by the deframer, in pieces of many sizes and in four threads, each with its own, and compares them
 * with those that nb_is_frame finds byte by byte.
 *
 *   deframer STREAM..
 *
 * Each stream is repeated to some 10,000 bytes, and tried as it is, behind bytes D3, cut off inside a frame, and with bytes that
 * are changed. Status 0: all as it should be. */
#include <pthread.h>
#include <stdio.h>
#include <stdlib.h>
#include <string.h>

#include "navbridge.h"
#include "wants.h"

enum { MOST = 1 << 16 };

typedef struct stream {
    uint8_t bytes[MOST], found[MOST];
    size_t n, n_found;
} stream;

typedef struct turn {
    pthread_t thread;
    const stream *from;
    size_t first;
    int wrong;
} turn;

static stream streams[16];
static size_t n_streams;

/* The frames of the bytes, one behind the other, where each is a frame by itself. */
static void find(stream *it) {
    size_t at = 0;
    while (at < it->n) {
        size_t size = nb_frame_wanted(it->bytes + at, it->n - at);
        if (size > 3 && at + size <= it->n && nb_is_frame(it->bytes + at, size)) {
            memcpy(it->found + it->n_found, it->bytes + at, size);
            it->n_found += size;
            at += size;
        } else {
            at++;
        }
    }
}

/* The frames of the bytes in pieces of a size, those of odd number into a room that is too small by so many bytes; whether they
 * are those that were found. Between two calls the deframer is moved. */
static int are_found(const stream *it, size_t piece, size_t short_by) {
    static const uint8_t filled[8] = {0xA5, 0xA5, 0xA5, 0xA5, 0xA5, 0xA5, 0xA5, 0xA5};
    nb_deframer *deframer = (nb_deframer *)malloc(nb_deframer_size()), *moved;
    uint8_t frame[NB_FRAME_MOST + sizeof filled];
    size_t at = 0, end, size, out = 0, number = 0;
    int is_right = deframer != NULL, is_ended = 0;
    if (deframer == NULL) return 0;
    memset(deframer, 0x5A, nb_deframer_size());
    nb_deframer_init(deframer);
    while (is_right && !is_ended) {
        is_ended = at == it->n;
        if (is_ended) nb_deframer_finish(deframer);
        end = it->n - at < piece ? it->n : at + piece;
        do {
            size_t taken = nb_deframer_feed(deframer, it->bytes + at, end - at);
            if (taken > end - at || (taken == 0) != (at == end)) is_right = 0;
            at += taken;
            moved = (nb_deframer *)malloc(nb_deframer_size());
            if (moved == NULL) break;
            memcpy(moved, deframer, nb_deframer_size());
            free(deframer);
            deframer = moved;
            for (;;) {
                size_t room = NB_FRAME_MOST - (number++ % 2 ? short_by : 0), put;
                memset(frame, 0xA5, sizeof frame);
                size = nb_deframer_next(deframer, frame, room);
                put = size < room ? size : room;
                if (size > NB_FRAME_MOST || out + size > it->n_found || memcmp(frame, it->found + out, put) != 0 ||
                    memcmp(frame + put, filled, sizeof filled) != 0) {
                    is_right = 0;
                    break;
                }
                if (size == 0) break;
                out += size;
            }
        } while (is_right && at < end);
    }
    is_right = is_right && out == it->n_found && nb_deframer_feed(deframer, it->bytes, it->n) == 0;
    free(deframer);
    return is_right;
}

static void *sizes(void *of) {
    static const size_t pieces[] = {1, 2, 3, 5, 7, 64, 68, 69, 70, 255, 1029, 1030, 4095, 4096, 4097, 65536, MOST};
    turn *it = (turn *)of;
    size_t i;
    for (i = 0; i < sizeof pieces / sizeof *pieces; i++)
        it->wrong += !are_found(it->from, pieces[(i + it->first) % (sizeof pieces / sizeof *pieces)], i % 2 ? 0 : i * 61);
    return NULL;
}

/* A decided frame that was not taken: nothing is fed. */
static void waits(const stream *it) {
    nb_deframer deframer;
    uint8_t frame[NB_FRAME_MOST];
    size_t taken = 0, size;
    nb_deframer_init(&deframer);
    want(nb_deframer_next(&deframer, frame, sizeof frame) == 0, 0, "no frame of nothing");
    want(nb_deframer_feed(&deframer, it->bytes, 0) == 0, 0, "nothing of nothing");
    size = nb_frame_wanted(it->bytes, it->n);
    want(nb_is_frame(it->bytes, size), 0, "the stream begins with a frame");
    while (taken < size) taken += nb_deframer_feed(&deframer, it->bytes + taken, size - taken);
    want(nb_deframer_feed(&deframer, it->bytes, it->n) == 0, 0, "nothing where a frame waits");
    want(nb_deframer_next(&deframer, NULL, 0) == size, 0, "its size, with no room");
    want(nb_deframer_feed(&deframer, it->bytes, 1) == 1, 0, "a byte behind it");
}

/* Adds the stream: as it is (0), behind bytes D3 (1), cut off inside a frame (2), or with bytes that are changed (3). */
static void add(const uint8_t *bytes, size_t n, int what) {
    stream *it = &streams[n_streams++];
    size_t i;
    if (what == 1) {
        memset(it->bytes, 0xD3, 3000);
        it->n = 3000;
    }
    memcpy(it->bytes + it->n, bytes, n);
    it->n += what == 2 ? n - 31 : n;
    if (what == 3)
        for (i = 100; i < it->n; i += 997) it->bytes[i] ^= 0x10;
    find(it);
}

static void *begins(void *at) {
    nb_deframer_init((nb_deframer *)at);
    return NULL;
}

/* Initialised with the 36 KB of stack that docs/LIBRARY.md asks for, and some for the thread itself. */
static int begins_small(void) {
    static nb_deframer it;
    pthread_t thread;
    pthread_attr_t small;
    if (pthread_attr_init(&small) != 0 || pthread_attr_setstacksize(&small, 48 << 10) != 0) return 0;
    return pthread_create(&thread, &small, begins, &it) == 0 && pthread_join(thread, NULL) == 0;
}

int main(int argc, char **argv) {
    static uint8_t bytes[MOST];
    turn turns[4];
    int what, i;
    size_t each;
    want(nb_deframer_size() <= NB_DEFRAMER_MOST, 0, "the header's size");
    want(begins_small(), 0, "a thread with 48 KB of stack");
    for (i = 1; i < argc && i <= 4; i++) {
        FILE *from = fopen(argv[i], "rb");
        size_t n = from == NULL ? 0 : fread(bytes, 1, 10000, from);
        if (from != NULL) fclose(from);
        want(n > 100, i, "the stream is read");
        for (; n > 100 && n < 10000; n *= 2) memcpy(bytes + n, bytes, n);
        for (what = 0; n > 100 && what < 4; what++) add(bytes, n, what);
    }
    if (n_streams == 0 || wrong > 0) return 2;
    waits(&streams[0]);
    for (each = 0; each < n_streams; each++) {
        for (i = 0; i < 4; i++) {
            turns[i].from = &streams[each];
            turns[i].first = (size_t)i * 4;
            turns[i].wrong = 0;
            if (pthread_create(&turns[i].thread, NULL, sizes, &turns[i]) != 0) return 2;
        }
        for (i = 0; i < 4; i++) {
            pthread_join(turns[i].thread, NULL);
            want(turns[i].wrong == 0, (int)each, "the frames of a stream in pieces");
        }
    }
    printf("deframer: %lu streams in 4 threads, %lu bytes a deframer, %d wrong\n", (unsigned long)n_streams,
           (unsigned long)nb_deframer_size(), wrong);
    return wrong != 0;
}
