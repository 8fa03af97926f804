/* Times the calls of the library for C, and RTKLIB's beside them where WITH_RTKLIB is defined (bench/library.sh).
 *
 *   library STREAM WEEK CAPTURE     a stream of RTCM 3, a week near it, and a capture
 *
 * Each row is the least of five runs, in processor time: ns a call, and MB/s of what the calls read. */
#ifdef WITH_RTKLIB
#include "../examples/c/rtklib_asks.h"
extern int decode_rtcm3(rtcm_t *rtcm);
#endif

#include <stdio.h>
#include <stdlib.h>
#include <string.h>
#include <time.h>

#include "navbridge.h"

typedef struct text {
    uint8_t *bytes;
    size_t n;
} text;

static text stream, capture, output, report;
static struct {
    uint8_t *at;
    size_t size;
} *frames;
static nb_item *items;
static size_t n_frames;
static uint32_t week;
static nb_deframer deframer;
static nb_push_state conversion;
static volatile size_t kept; /* what a row found, so that none of it is left out */

static double now(void) {
    struct timespec it;
    clock_gettime(CLOCK_PROCESS_CPUTIME_ID, &it);
    return (double)it.tv_sec + (double)it.tv_nsec / 1e9;
}

static text read_file(const char *name) {
    text it = {NULL, 0};
    FILE *from = fopen(name, "rb");
    if (from == NULL) exit(2);
    fseek(from, 0, SEEK_END);
    it.n = (size_t)ftell(from);
    rewind(from);
    it.bytes = (uint8_t *)malloc(it.n + 1);
    if (it.bytes == NULL || fread(it.bytes, 1, it.n, from) < it.n) exit(2);
    fclose(from);
    return it;
}

static void find_frames(void) {
    size_t at = 0;
    frames = malloc((stream.n / 6 + 1) * sizeof *frames);
    items = (nb_item *)calloc(stream.n / 6 + 1, sizeof *items);
    if (frames == NULL || items == NULL) exit(6);
    while (at < stream.n) {
        size_t size = nb_frame_wanted(stream.bytes + at, stream.n - at);
        if (size > 3 && at + size <= stream.n && nb_is_frame(stream.bytes + at, size) &&
            nb_message_read(stream.bytes + at + 3, size - 6, week, &items[n_frames]) == NB_OK) {
            frames[n_frames].at = stream.bytes + at;
            frames[n_frames++].size = size;
            at += size;
        } else {
            at++;
        }
    }
}

/* A row: what a run does to everything, and how many calls and bytes that is. */
static void row(const char *name, size_t (*run)(size_t), size_t word, size_t calls, size_t bytes) {
    double least = 1e9;
    int i;
    for (i = 0; i < 5; i++) {
        double from = now();
        kept = run(word);
        if (now() - from < least) least = now() - from;
    }
    printf("%-52s %10.1f %10.1f\n", name, least / (double)calls * 1e9, (double)bytes / least / 1e6);
}

static size_t are_frames(size_t word) {
    size_t i, count = word;
    for (i = 0; i < n_frames; i++) count += nb_is_frame(frames[i].at, frames[i].size);
    return count;
}

static size_t reads(size_t word) {
    size_t i, count = word;
    nb_item item;
    for (i = 0; i < n_frames; i++) count += nb_message_read(frames[i].at + 3, frames[i].size - 6, week, &item);
    return count;
}

static size_t writes(size_t word) {
    uint8_t frame[NB_FRAME_MOST];
    size_t i, used, count = word;
    for (i = 0; i < n_frames; i++) count += nb_message_write(&items[i], frame, sizeof frame, &used) + used;
    return count;
}

/* The stream in pieces of a size; `with` whether each frame's message is read too. */
static size_t in_pieces(size_t piece, int with) {
    uint8_t frame[NB_FRAME_MOST];
    size_t at = 0, end, size, count = 0;
    nb_item item;
    nb_deframer_init(&deframer);
    while (at < stream.n) {
        end = stream.n - at < piece ? stream.n : at + piece;
        do {
            at += nb_deframer_feed(&deframer, stream.bytes + at, end - at);
            while ((size = nb_deframer_next(&deframer, frame, sizeof frame)) > 0)
                count += with ? nb_message_read(frame + 3, size - 6, week, &item) : 1;
        } while (at < end);
    }
    return count;
}

static size_t deframes(size_t piece) { return in_pieces(piece, 0); }
static size_t deframes_and_reads(size_t piece) { return in_pieces(piece, 1); }

/* Subframes 1 to 3, a page with word 1 and a record, of numbers that are zero. */
static nb_subframe_bits subframes[3];
static nb_page_bits page;
static uint8_t record[1024];
static size_t record_size;

static int make_parts(void) {
    nb_subframe value;
    nb_word word;
    uint32_t i;
    memset(&word, 0, sizeof word);
    for (i = 0; i < 3; i++) {
        memset(&value, 0, sizeof value);
        value.number = i + 1;
        if (nb_subframe_write(&value, 1, &subframes[i]) != NB_OK) return 0;
    }
    word.number = 1;
    return nb_page_write(&word, 11, &page) == NB_OK &&
           nb_record_write(&items[0], 4, record, sizeof record, &record_size) == NB_OK && record_size <= sizeof record;
}

static size_t reads_subframes(size_t count) {
    nb_subframe value;
    size_t i, k, found = 0;
    for (i = 0; i < count; i++)
        for (k = 0; k < 3; k++) found += nb_subframe_read(&subframes[k], 7, &value);
    return found;
}

static size_t reads_pages(size_t count) {
    nb_word word;
    size_t i, found = 0;
    for (i = 0; i < count; i++) found += nb_page_read(&page, 11, &word);
    return found;
}

static size_t reads_records(size_t count) {
    nb_item item;
    size_t i, found = 0;
    for (i = 0; i < count; i++) found += nb_record_read(record, record_size, 4, &item);
    return found;
}

static size_t writes_records(size_t word) {
    uint8_t text[1024];
    size_t i, used, count = word;
    for (i = 0; i < n_frames; i++) count += nb_record_write(&items[i], 4, text, sizeof text, &used) + used;
    return count;
}

static const char *const jobs[][4] = {
    {"--from=stream", "--to=frames", "", ""},
    {"--from=stream", "--to=rinex", "--date=20240101 000000 UTC", "--leap=18"},
    {"--from=capture", "--to=rinex", "--date=20240101 000000 UTC", "--leap=18"}};

/* The words of a job, and how many; near is room for one of them. */
static size_t words_of(size_t job, nb_bytes *words, char *near) {
    size_t n = 0, i;
    for (i = 0; i < 4 && jobs[job][i][0] != 0; i++) {
        words[n].at = (const uint8_t *)jobs[job][i];
        words[n++].size = strlen(jobs[job][i]);
    }
    if (job > 0) {
        words[n].at = (const uint8_t *)near;
        words[n++].size = (size_t)sprintf(near, "--week=%u", (unsigned)week);
    }
    return n;
}

static size_t converts(size_t job) {
    nb_bytes words[5];
    char near[32];
    const text *input = job == 2 ? &capture : &stream;
    size_t n = words_of(job, words, near), used = 0, report_used = 0;
    if (nb_convert(words, n, input->bytes, input->n, output.bytes, output.n, &used, report.bytes, report.n, &report_used) != NB_OK)
        printf("a conversion failed\n");
    return used;
}

/* The same in pieces of 4,096 bytes, whose output is taken as it comes. */
static size_t pushes(size_t job) {
    nb_bytes words[5];
    char near[32];
    const text *input = job == 2 ? &capture : &stream;
    size_t n = words_of(job, words, near), at = 0, used = 0;
    uint32_t status = nb_push_open(&conversion, words, n);
    while (status == NB_OK && at < input->n) {
        size_t size = input->n - at < 4096 ? input->n - at : 4096;
        status = nb_push(&conversion, input->bytes + at, size);
        at += size;
        used += nb_push_take(&conversion, output.bytes + used, output.n - used);
    }
    if (status != NB_OK || nb_push_finish(&conversion) != NB_OK) printf("a pushed conversion failed\n");
    used += nb_push_take(&conversion, output.bytes + used, output.n - used);
    nb_push_close(&conversion);
    return used;
}

#ifdef WITH_RTKLIB
static rtcm_t rtcm;

static size_t rtklib_reads(size_t word) {
    size_t i, count = word;
    for (i = 0; i < n_frames; i++) {
        memcpy(rtcm.buff, frames[i].at, frames[i].size);
        rtcm.len = (int)frames[i].size - 3;
        count += decode_rtcm3(&rtcm) == 2;
    }
    return count;
}

static size_t rtklib_deframes_and_reads(size_t word) {
    size_t i, count = word;
    for (i = 0; i < stream.n; i++) count += input_rtcm3(&rtcm, stream.bytes[i]) == 2;
    return count;
}

static size_t rtklib_writes(size_t word) {
    size_t i, count = word;
    for (i = 0; i < n_frames; i++) {
        /* the ephemeris of each satellite that the frames left, again and again */
        rtcm.ephsat = items[i].kind == NB_GPS ? satno(SYS_GPS, (int)items[i].gps.satellite)
                                              : satno(SYS_GAL, (int)items[i].gal.satellite);
        count += (size_t)gen_rtcm3(&rtcm, items[i].kind == NB_GPS ? 1019 : 1046, 0, 0);
    }
    return count;
}

/* Three subframes whose numbers are zero, without their parity, as RTKLIB keeps them. */
static size_t rtklib_frames(size_t count) {
    uint8_t bits[150] = {0};
    size_t i, found = 0;
    eph_t eph;
    for (i = 0; i < 3; i++) setbitu(bits, (int)(240 * i + 43), 3, (uint32_t)i + 1);
    for (i = 0; i < count; i++) found += (size_t)decode_frame(bits, &eph, NULL, NULL, NULL);
    return found;
}
#endif

int main(int argc, char **argv) {
    if (argc != 4) {
        fprintf(stderr, "usage: library STREAM WEEK CAPTURE\n");
        return 2;
    }
    stream = read_file(argv[1]);
    week = (uint32_t)strtoul(argv[2], NULL, 10);
    capture = read_file(argv[3]);
    output.n = 16 * (stream.n + capture.n);
    report.n = 1 << 20;
    output.bytes = (uint8_t *)calloc(output.n, 1);
    report.bytes = (uint8_t *)calloc(report.n, 1);
    find_frames();
    if (output.bytes == NULL || report.bytes == NULL || n_frames == 0 || !make_parts()) return 6;
    printf("%-52s %10s %10s\n", "call", "ns a call", "MB/s");
    row("nb_is_frame", are_frames, 0, n_frames, stream.n);
    row("nb_message_read", reads, 0, n_frames, stream.n);
    row("nb_message_write", writes, 0, n_frames, stream.n);
    row("deframer, a byte a call", deframes, 1, stream.n, stream.n);
    row("deframer, 64 bytes a call", deframes, 64, (stream.n + 63) / 64, stream.n);
    row("deframer, 4,096 bytes a call", deframes, 4096, (stream.n + 4095) / 4096, stream.n);
    row("deframer and nb_message_read, 4,096 bytes a call", deframes_and_reads, 4096, n_frames, stream.n);
    row("nb_subframe_read, three subframes", reads_subframes, 300000, 300000, 300000 * sizeof subframes);
    row("nb_page_read", reads_pages, 300000, 300000, 300000 * sizeof page);
    row("nb_record_read", reads_records, 100000, 100000, 100000 * record_size);
    row("nb_record_write", writes_records, 0, n_frames, n_frames * record_size);
    row("nb_convert, stream to frames", converts, 0, 1, stream.n);
    row("nb_convert, stream to rinex", converts, 1, 1, stream.n);
    row("nb_convert, capture to rinex", converts, 2, 1, capture.n);
    row("nb_push, stream to rinex, 4,096 bytes a call", pushes, 1, 1, stream.n);
    row("nb_push, capture to rinex, 4,096 bytes a call", pushes, 2, 1, capture.n);
#ifdef WITH_RTKLIB
    if (!init_rtcm(&rtcm)) return 6;
    rtcm.time = gpst2time((int)week, 302400);
    strcpy(rtcm.opt, "-EPHALL");
    row("RTKLIB, decode_rtcm3", rtklib_reads, 0, n_frames, stream.n);
    row("RTKLIB, input_rtcm3, a byte a call", rtklib_deframes_and_reads, 0, stream.n, stream.n);
    row("RTKLIB, gen_rtcm3", rtklib_writes, 0, n_frames, stream.n);
    row("RTKLIB, decode_frame, three subframes", rtklib_frames, 1000000, 1000000, 90000000);
    free_rtcm(&rtcm);
#endif
    return 0;
}
