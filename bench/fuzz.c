/* Calls of the library for C, in an order and with bytes that an input decides, beside what each of them promises: which statuses it
 * returns, what stays unchanged, how much it writes, that pieces give what the whole gives, that all memory is released.
 *
 * With clang's -fsanitize=fuzzer it is a target of libFuzzer. With -DALONE it is a program:
 *
 *   fuzz SEED SECONDS THREADS    inputs from this seed; each of the threads runs every input, and all must get the same
 *
 * The variable SAMPLES names files, separated by colons, whose parts the inputs use: streams, captures, navigation files.
 *
 * Each buffer ends at a page that may not be touched, or begins behind one, so that the archive needs no instrumentation. With -DHEAP
 * each is allocated with its exact size instead, and not initialised, for valgrind and AddressSanitizer. */
#define _DEFAULT_SOURCE
#include <pthread.h>
#include <stdio.h>
#include <stdlib.h>
#include <string.h>
#include <sys/mman.h>
#include <time.h>

#include "navbridge.h"
#include "refused.h"

enum { SLOTS = 8, ROOM = 1 << 17, MOST = 1 << 15, GUARD = 4096, MARGIN = 64, SAMPLES = 512, WORDS = 8, CALLS = 40 };

#define PROMISE(it)                                                                 \
    do {                                                                            \
        if (!(it)) fprintf(stderr, "line %d: not so: %s\n", __LINE__, #it), abort(); \
    } while (0)

/* The sample files, the payloads of their frames, and their records. */
typedef enum kind { CAPTURE, STREAM, NAVIGATION, PAYLOAD, RECORD } kind;
static struct {
    const uint8_t *at;
    size_t n;
    kind kind;
} samples[SAMPLES];
static size_t n_samples;

static const char *const jobs[] = {
    "--from=capture|--to=rinex|--date=20240101 000000 UTC|--leap=18",
    "--from=capture|--to=rinex3|--week=2295|--date=20240101 000000 UTC|--leap=18",
    "--from=capture|--to=rtcm",
    "--from=capture|--to=list",
    "--from=capture|--to=count",
    "--from=stream|--to=rinex|--week=2295|--date=20240101 000000 UTC|--leap=18",
    "--from=stream|--to=rinex3|--week=2295|--date=20240101 000000 UTC|--leap=18",
    "--from=stream|--to=rtcm|--week=2295",
    "--from=stream|--to=frames", /* from here on not pushed */
    "--from=rinex|--to=rinex|--date=20240101 000000 UTC|--leap=18",
    "--from=rinex|--to=merged|--date=20240101 000000 UTC|--leap=18",
    "--from=rinex|--to=cover",
    "--from=rinex|--to=list",
    "--from=rinex|--to=rtcm",
    "--from=rinex|--to=capture|--week=2295",
    "--from=rinex3|--to=rinex|--date=20240101 000000 UTC|--leap=18",
    "--from=seed|--to=count|--seed=7|--sats=2|--week=2295",
};
enum { JOBS = sizeof jobs / sizeof *jobs, PUSHED = 8 };

/* What grows as a state takes and gives bytes. */
typedef struct text {
    uint8_t bytes[2 * MOST];
    size_t n;
} text;

typedef struct run {
    const uint8_t *at, *end; /* what is left of the input */
    uint8_t *slots[SLOTS];
    nb_deframer *deframer; /* NULL: none is initialised */
    nb_pages *pages;
    nb_push_state *push;
    int is_short;     /* of the deframer: all that it took and gave is in fed and frames */
    int is_whole;     /* of the conversion: the same of pushed, output and report, and no memory was refused */
    int job;          /* that of the conversion, below 0 of other words */
    nb_status status; /* what it returns from here on, if not NB_OK */
    text fed, frames, pushed, output, report, other, more;
    uint8_t data[MOST];
    size_t which, from; /* the sample that was used last, and what follows in it */
    nb_item item;
    nb_subframe subframe;
    nb_subframe_bits bits;
    nb_word word;
    nb_page_bits page;
    nb_row row;
    uint64_t sum;        /* of all that was returned and written */
    uint64_t calls;      /* how many, of all inputs */
    uint8_t *seen;       /* which returned what */
} run;

#ifndef ALONE
/* Where libFuzzer looks for this. */
__attribute__((used, section("__libfuzzer_extra_counters")))
#endif
static uint8_t seen[CALLS * 128];

static void summed(run *it, const void *at, size_t n) {
    const uint8_t *bytes = (const uint8_t *)at;
    size_t i;
    for (i = 0; i < n; i++) it->sum = (it->sum ^ bytes[i]) * 1099511628211u;
}

/* A call returned this number. */
static void got(run *it, unsigned call, uint64_t number) {
    it->calls++;
    summed(it, &number, sizeof number);
    it->seen[call % CALLS * 128 + (number < 100 ? number : 100 + number % 28)] = 1;
}

static uint32_t byte(run *it) { return it->at < it->end ? *it->at++ : 0; }
static uint32_t two(run *it) { return byte(it) | byte(it) << 8; }
static uint32_t four(run *it) { return two(it) | two(it) << 16; }

/* A number that is mostly small. */
static uint32_t number(run *it) {
    uint32_t how = byte(it);
    return how < 192 ? how % 64 : how < 250 ? two(it) : four(it);
}

/* A buffer of the library's, with this content or filled; `kept` says whether the bytes beside it are as they were. */
static uint8_t *lent(run *it, int slot, const void *from, size_t n) {
    uint8_t *at;
#ifdef HEAP
    free(it->slots[slot]);
    at = it->slots[slot] = (uint8_t *)malloc(n);
    PROMISE(at != NULL || n == 0);
#else
    at = it->slots[slot] + (n % 3 == 1 && from == NULL ? 0 : ROOM - n);
    if (at != it->slots[slot]) memset(at - MARGIN, 0xA5, MARGIN);
    memset(at, 0xA5, ROOM - (size_t)(at - it->slots[slot]) < n + MARGIN ? n : n + MARGIN);
#endif
    if (from != NULL && n > 0) memcpy(at, from, n);
    return n == 0 && byte(it) % 2 ? NULL : at;
}

#ifndef HEAP
static int filled(const uint8_t *at, size_t n) {
    size_t i;
    for (i = 0; i < n; i++)
        if (at[i] != 0xA5) return 0;
    return 1;
}
#endif

/* Of a buffer of this size so much was written, and no byte beside that. */
static int kept(run *it, int slot, const uint8_t *at, size_t n, size_t used) {
#ifdef HEAP
    (void)it, (void)slot, (void)at, (void)n, (void)used;
    return 1;
#else
    const uint8_t *end = it->slots[slot] + ROOM;
    if (at == NULL) return 1;
    if (at > it->slots[slot] && !filled(at - MARGIN, MARGIN)) return 0;
    return used >= n ? filled(at + n, (size_t)(end - at) - n < MARGIN ? 0 : MARGIN) : filled(at + used, n - used);
#endif
}

/* The sample of a number, or the next behind it of this kind. */
static size_t sample(uint32_t number, kind kind) {
    size_t i;
    for (i = 0; i < n_samples; i++)
        if (samples[(number + i) % n_samples].kind == kind) return (number + i) % n_samples;
    return number % n_samples;
}

/* Bytes for a call into it->data: of the input, or of a sample, cut and changed. */
static size_t bytes(run *it, kind kind) {
    uint32_t how = byte(it), changes;
    size_t n = 0, from;
    if (how < 32 || n_samples == 0) {
        for (n = how % 8 ? byte(it) : two(it) % 2048, from = 0; from < n && it->at < it->end; from++) it->data[from] = (uint8_t)byte(it);
        return from;
    }
    do {
        const int goes_on = how >= 128 && it->from > 0 && samples[it->which].kind == kind;
        const size_t which = goes_on ? it->which : how % 16 == 15 ? byte(it) % n_samples : sample(byte(it), kind), whole = samples[which].n;
        size_t count = how & 8 ? two(it) % 4096 : whole;
        from = goes_on ? it->from : how % 32 == 31 ? two(it) % (whole + 1) : 0;
        if (count > whole - from) count = whole - from;
        if (count > MOST - n) count = MOST - n;
        memcpy(it->data + n, samples[which].at + from, count);
        n += count;
        it->which = which;
        it->from = from + count;
    } while (byte(it) % 8 == 7 && n < MOST && it->at < it->end);
    for (changes = n > 0 && how & 64 ? how & 3 : 0; changes > 0; changes--) {
        const size_t place = four(it) % n;
        it->data[place] ^= (uint8_t)(1 << byte(it) % 8);
    }
    return n;
}

/* The arguments of a conversion: how many, and which it is; below 0 where one was changed. */
static size_t words(run *it, nb_bytes *to, int *job) {
    static const uint8_t none[1] = {0};
    const uint32_t which = byte(it) % JOBS, how = byte(it);
    char *at = (char *)lent(it, 0, jobs[which], strlen(jobs[which]) + 1), *end;
    size_t n = 0;
    *job = (int)which;
    if (how < 32) {
        *job = -1;
        at[two(it) % strlen(jobs[which])] = (char)byte(it);
        if (how < 2) return 0;
    }
    for (; at != NULL && n < WORDS; at = end != NULL ? end + 1 : NULL) {
        end = strchr(at, '|');
        to[n].at = at[0] != 0 ? (const uint8_t *)at : none;
        to[n++].size = end != NULL ? (size_t)(end - at) : strlen(at);
    }
    return n;
}

/* What a conversion reads. */
static kind kind_of(int job) { return job < 5 ? CAPTURE : job < 9 ? STREAM : NAVIGATION; }

static void added(text *to, const uint8_t *from, size_t n, int *is_all) {
    if (n > sizeof to->bytes - to->n) *is_all = 0;
    if (!*is_all) return;
    if (n > 0) memcpy(to->bytes + to->n, from, n);
    to->n += n;
}

static int is_one_of(nb_status status, const char *of) {
    const char *name = nb_status_name(status), *found = strstr(of, name + 3);
    return found != NULL && (found == of || found[-1] == ' ') && strchr(" ", found[strlen(name + 3)]) != NULL;
}

static void converts(run *it) {
    nb_bytes given[WORDS];
    size_t n_words, n, room = number(it) * 16 % MOST, report_room = number(it) * 16 % MOST, used = 77, report_used = 77;
    int job;
    uint8_t *from, *output, *report;
    nb_status status;
    n_words = words(it, given, &job);
    n = bytes(it, kind_of(job));
    from = lent(it, 1, it->data, n);
    output = lent(it, 2, NULL, room);
    report = lent(it, 3, NULL, report_room);
    status = nb_convert(given, n_words, from, n, output, room, &used, report, report_room, &report_used);
    got(it, 0, status);
    PROMISE(is_one_of(status, "OK NO_JOB OUTPUT_ROOM NOT_THIS_FORM NO_MEMORY REPORT_ROOM NO_TEXT"));
    PROMISE(n == 0 || memcmp(from, it->data, n) == 0);
    PROMISE(kept(it, 2, output, room, used) && kept(it, 3, report, report_room, report_used));
    PROMISE((status != NB_OK && status != NB_REPORT_ROOM) || used <= room);
    PROMISE(status != NB_OK || report_used <= report_room);
    PROMISE(status != NB_OUTPUT_ROOM || used > room);
    PROMISE(status != NB_REPORT_ROOM || report_used > report_room);
    PROMISE(is_one_of(status, "OK OUTPUT_ROOM REPORT_ROOM NO_MEMORY") || (used == 0 && report_used == 0));
    if (output != NULL) summed(it, output, used < room ? used : room);
    if (report != NULL) summed(it, report, report_used < report_room ? report_used : report_room);
}

/* Frames and messages. */
static void messages(run *it, uint32_t call) {
    size_t n = bytes(it, PAYLOAD), room = number(it) * 8 % 2048, size, used = 77;
    uint8_t *from = lent(it, 1, it->data, n), *to = lent(it, 2, NULL, room);
    nb_item *item = (nb_item *)(void *)lent(it, 4, &it->item, sizeof it->item);
    nb_status status;
    if (call == 1) {
        got(it, call, nb_is_frame(from, n));
    } else if (call == 2) {
        size = nb_frame_make(from, n, to, room);
        got(it, call, size);
        PROMISE(size == (n <= 1023 ? n + 6 : 0) && kept(it, 2, to, room, size));
        PROMISE(size == 0 || size > room || (nb_is_frame(to, size) && nb_frame_wanted(to, size) == size && (n == 0 || memcmp(to + 3, from, n) == 0)));
    } else if (call == 3) {
        status = nb_message_read(from, n, byte(it) % 8 ? 2295 : four(it), item);
        got(it, call, status);
        PROMISE(is_one_of(status, "OK NO_WEEK NO_NUMBER OTHER_MESSAGE SHORT BAD_SATELLITE BAD_TIME SPARE_SISA"));
        PROMISE(status == NB_OK || memcmp(item, &it->item, sizeof *item) == 0);
        PROMISE(n == 0 || memcmp(from, it->data, n) == 0);
        it->item = *item;
    } else if (call == 31) {
        nb_item again = it->item;
        uint8_t frame[NB_FRAME_MOST];
        size = nb_frame_make(from, n, frame, sizeof frame);
        if (byte(it) % 4 == 0 && size > 0) frame[byte(it) * 7 % size] ^= (uint8_t)byte(it);
        from = lent(it, 3, frame, size);
        status = nb_frame_read(from, size, 2295, item);
        got(it, call, status);
        PROMISE(status == NB_OK || memcmp(item, &it->item, sizeof *item) == 0);
        PROMISE(status == (nb_is_frame(from, size) ? nb_message_read(from + 3, size - 6, 2295, &again) : NB_NO_FRAME));
        PROMISE(memcmp(item, &again, sizeof again) == 0);
    } else {
        status = nb_message_write(item, to, room, &used);
        got(it, call, status);
        PROMISE(is_one_of(status, "OK NO_ITEM NO_MESSAGE") && kept(it, 2, to, room, status == NB_OK ? used : 0));
        PROMISE(status == NB_OK ? used == (item->kind == NB_GPS ? 67 : 69) : used == 0);
        PROMISE(memcmp(item, &it->item, sizeof *item) == 0);
        if (status == NB_OK && used <= room) {
            nb_item again = it->item;
            PROMISE(nb_is_frame(to, used));
            /* a week that the message can name */
            if (nb_message_read(to + 3, used - 6, it->item.gps.toe_week, &again) == NB_OK && it->item.kind == NB_GPS)
                PROMISE(memcmp(&again.gps.a, &it->item.gps.a, sizeof again.gps.a) == 0);
            summed(it, to, used);
        }
    }
}

static void subframes(run *it, uint32_t call) {
    nb_subframe_bits *bits = (nb_subframe_bits *)(void *)lent(it, 1, &it->bits, sizeof it->bits);
    nb_subframe *content = (nb_subframe *)(void *)lent(it, 2, &it->subframe, sizeof it->subframe);
    nb_status status;
    if (call == 5) {
        status = nb_subframe_read(bits, number(it), content);
        PROMISE(nb_parity_word(status) > 0 || is_one_of(status, "OK NO_SATELLITE SUBFRAME_PREAMBLE SUBFRAME_TOW SUBFRAME_UNUSED SUBFRAME_TIME"));
        PROMISE(status == NB_OK || memcmp(content, &it->subframe, sizeof *content) == 0);
        PROMISE(memcmp(bits, &it->bits, sizeof *bits) == 0);
        it->subframe = *content;
        it->bits.bytes[byte(it) % 38] ^= (uint8_t)(1 << byte(it) % 8);
    } else {
        const uint32_t count = byte(it) % 8 ? 1 + byte(it) : four(it);
        status = nb_subframe_write(content, count, bits);
        PROMISE(is_one_of(status, "OK NO_TOW_COUNT NO_ITEM") && (status == NB_OK || memcmp(bits, &it->bits, sizeof *bits) == 0));
        PROMISE(memcmp(content, &it->subframe, sizeof *content) == 0);
        PROMISE(status != NB_OK || nb_subframe_read(bits, 1, content) == NB_OK);
        it->bits = *bits;
    }
    got(it, call, status);
    summed(it, content, sizeof *content);
}

static void words_of_pages(run *it, uint32_t call) {
    nb_page_bits *bits = (nb_page_bits *)(void *)lent(it, 1, &it->page, sizeof it->page);
    nb_word *content = (nb_word *)(void *)lent(it, 2, &it->word, sizeof it->word);
    const uint32_t satellite = number(it);
    nb_status status;
    if (call == 7) {
        status = nb_page_read(bits, satellite, content);
        PROMISE(is_one_of(status, "OK NO_SATELLITE PAGE_ALERT PAGE_NO_PAIR PAGE_CRC WORD_UNUSED WORD_SATELLITE WORD_TIME WORD_SISA"));
        PROMISE(status == NB_OK || memcmp(content, &it->word, sizeof *content) == 0);
        PROMISE(memcmp(bits, &it->page, sizeof *bits) == 0);
        it->word = *content;
        it->page.even[byte(it) % 15] ^= (uint8_t)(1 << byte(it) % 8);
    } else {
        status = nb_page_write(content, satellite, bits);
        PROMISE(is_one_of(status, "OK NO_SATELLITE NO_ITEM") && (status == NB_OK || memcmp(bits, &it->page, sizeof *bits) == 0));
        PROMISE(memcmp(content, &it->word, sizeof *content) == 0);
        PROMISE(status != NB_OK || nb_page_read(bits, satellite, content) == NB_OK);
        it->page = *bits;
    }
    got(it, call, status);
    summed(it, content, sizeof *content);
}

static void records(run *it, uint32_t call) {
    const uint32_t version = byte(it) % 8 ? 4 - byte(it) % 2 : four(it);
    size_t n = call == 9 ? bytes(it, RECORD) : 0, room = number(it) * 16 % 2048, used = 77;
    uint8_t *from = lent(it, 1, it->data, n), *to = lent(it, 2, NULL, room);
    nb_item *item = (nb_item *)(void *)lent(it, 4, &it->item, sizeof it->item);
    nb_status status;
    if (call == 9) {
        status = nb_record_read(from, n, version, item);
        PROMISE((status >= NB_RECORD_SATELLITE && status <= NB_RECORD_PASSED_OVER) || is_one_of(status, "OK NO_VERSION"));
        PROMISE(status == NB_OK || memcmp(item, &it->item, sizeof *item) == 0);
        it->item = *item;
    } else {
        status = nb_record_write(item, version, to, room, &used);
        PROMISE(is_one_of(status, "OK NO_VERSION NO_ITEM") && kept(it, 2, to, room, status == NB_OK ? used : 0));
        PROMISE(status == NB_OK ? used < 1024 : used == 0);
        if (status == NB_OK && used > 0 && used <= room) {
            nb_item again = it->item;
            PROMISE(nb_record_read(to, used, version, &again) == NB_OK && again.kind == it->item.kind);
            summed(it, to, used);
        }
    }
    got(it, call, status);
}

/* The contents of subframes or words of the item, one number of them changed or none, joined. */
static void joins(run *it, uint32_t call) {
    const uint32_t week = byte(it) % 8 ? 2295 : four(it), satellite = byte(it) % 8 ? 1 + byte(it) % 32 : number(it);
    const uint32_t how = byte(it), value = byte(it) % 4 ? number(it) : four(it);
    nb_subframe subframes[3];
    nb_word words[5];
    uint8_t *const all = call == 32 ? (uint8_t *)subframes : (uint8_t *)words, *from;
    const size_t n = call == 32 ? sizeof subframes : sizeof words;
    nb_item *item = (nb_item *)(void *)lent(it, 4, &it->item, sizeof it->item), again = it->item;
    nb_status status;
    uint32_t i;
    for (i = 0; i < 3; i++) subframes[i] = it->subframe, subframes[i].number = i + 1;
    for (i = 0; i < 5; i++) words[i] = it->word, words[i].number = i + 1;
    subframes[0].wn = 247;
    subframes[0].second = words[4].second = value % 604800;
    subframes[0].clock = it->item.gps.clock;
    subframes[0].clock.iodc = it->item.gps.a.iode;
    subframes[0].side = it->item.gps.side;
    subframes[1].a = it->item.gps.a;
    subframes[1].fit = it->item.gps.fit;
    subframes[2].b = it->item.gps.b;
    words[0].w1 = it->item.gal.w1;
    words[1].w2 = it->item.gal.w2;
    words[2].w3 = it->item.gal.w3;
    words[3].w4 = it->item.gal.w4;
    words[4].wn = 1271;
    words[4].health = it->item.gal.health;
    if (how % 4 == 0) memcpy(all + how * 1021 * 4 % n, &value, sizeof value);
    from = lent(it, 1, all, n);
    status = call == 32 ? nb_subframes_join((const nb_subframe *)(const void *)from, satellite, week, item)
                        : nb_words_join((const nb_word *)(const void *)from, satellite, week, item);
    got(it, call, status);
    PROMISE(is_one_of(status, "OK NO_WEEK NO_SATELLITE NO_ITEM") && memcmp(from, all, n) == 0);
    PROMISE(status == NB_OK || memcmp(item, &it->item, sizeof *item) == 0);
    if (status == NB_OK) {
        uint8_t text[1024];
        size_t used;
        PROMISE(item->kind == (call == 32 ? NB_GPS : NB_GALILEO));
        PROMISE(nb_record_write(item, 4, text, sizeof text, &used) == NB_OK && nb_record_read(text, used, 4, &again) == NB_OK);
        PROMISE(memcmp(&again, item, sizeof again) == 0);
    }
}

/* A file of records: its header, and where each of its parts ends. */
static void files(run *it, uint32_t call) {
    const uint32_t version = byte(it) % 8 ? 4 - byte(it) % 2 : four(it);
    const size_t room = number(it) * 8 % 1024;
    size_t used = 77, n, size;
    if (call == 34) {
        uint8_t *to = lent(it, 2, NULL, room);
        nb_header *header = (nb_header *)(void *)lent(it, 1, "20240101 000000 UTC", sizeof *header);
        nb_status status;
        header->leap = (uint8_t)number(it);
        if (byte(it) % 4 == 0) header->date[byte(it) % 19] = (uint8_t)byte(it);
        status = nb_header_write(header, version, to, room, &used);
        got(it, call, status);
        PROMISE(is_one_of(status, "OK NO_VERSION NO_HEADER") && kept(it, 2, to, room, status == NB_OK ? used : 0));
        PROMISE(used == (status == NB_OK ? 308 : 0) && (used > room || used == 0 || nb_header_size(to, room) == used));
    } else {
        const uint32_t is_end = byte(it) % 2;
        uint8_t *from;
        n = bytes(it, byte(it) % 2 ? NAVIGATION : RECORD);
        from = lent(it, 1, it->data, n);
        size = nb_header_size(from, n);
        PROMISE(size <= n && (size == 0 || from[size - 1] == '\n'));
        got(it, call, size % 99);
        used = size;
        while (used < n && (size = nb_record_size(from + used, n - used, version, is_end)) > 0) {
            PROMISE(size <= n - used && (used + size == n || from[used + size - 1] == '\n'));
            PROMISE(used + size == n || nb_record_size(from + used, size, version, 0) == 0);
            used += size;
        }
        PROMISE(used == n || !is_end || (version != 3 && version != 4));
        got(it, call, used % 99);
    }
}

/* Rows of messages of all systems, and of numbers that are none. */
static void rows(run *it, uint32_t call) {
    static const uint16_t kinds[] = {1019, 1020, 1041, 1042, 1044, 1045, 1046, 4095};
    nb_row *row = (nb_row *)(void *)lent(it, 4, &it->row, sizeof it->row);
    const uint32_t kind = kinds[byte(it) % 8], index = number(it);
    nb_status status;
    if (call == 37) {
        size_t n = bytes(it, PAYLOAD);
        uint8_t *from;
        if (n > 2 && byte(it) % 4) {
            it->data[0] = (uint8_t)(kind >> 4);
            it->data[1] = (uint8_t)((kind << 4) | (it->data[1] & 15u));
        }
        from = lent(it, 1, it->data, n);
        status = nb_row_from_message(from, n, byte(it) % 8 ? 2295 : four(it), row);
        got(it, call, status);
        PROMISE(is_one_of(status, "OK NO_WEEK NO_NUMBER OTHER_MESSAGE SHORT BAD_SATELLITE BAD_FIELD BAD_DAY SPARE_SISA"));
        PROMISE(status == NB_OK || memcmp(row, &it->row, sizeof *row) == 0);
        if (status == NB_OK) {
            uint8_t text[1024];
            size_t used;
            PROMISE(row->count <= NB_COLUMNS_MOST && nb_row_rinex(row, text, sizeof text, &used) == NB_OK && used < sizeof text);
            PROMISE(text[6] == row->letter && nb_row_name(row, row->count - 1)[0] != 0 && nb_row_name(row, row->count)[0] == 0);
            status = nb_row_message(row, text, sizeof text, &used);
            PROMISE(is_one_of(status, "OK BAD_SENT BAD_DAY RECORD_WEEK RECORD_STEP RECORD_FAR") && nb_is_frame(text, used) == (status == NB_OK));
        }
        it->row = *row;
    } else if (call == 38) {
        const size_t room = number(it) * 8 % 1024;
        uint8_t *to = lent(it, 2, NULL, room);
        size_t used = 77;
        const uint32_t value = four(it);
        memcpy((uint8_t *)row + index * 4 % (sizeof *row - 4), &value, byte(it) % 2 ? sizeof value : 0);
        status = byte(it) % 2 ? nb_row_rinex(row, to, room, &used) : nb_row_message(row, to, room, &used);
        got(it, call, status);
        PROMISE(is_one_of(status, "OK NO_ITEM BAD_SENT BAD_DAY BAD_SATELLITE BAD_FIELD SPARE_SISA RECORD_WEEK RECORD_STEP RECORD_FAR"));
        PROMISE(kept(it, 2, to, room, status == NB_OK ? used : 0) && (status == NB_OK) == (used > 0));
    } else {
        nb_column *column = (nb_column *)(void *)lent(it, 2, NULL, sizeof *column);
        status = nb_row_column(row, index, column);
        got(it, call, status);
        PROMISE(is_one_of(status, "OK NO_ITEM") && kept(it, 2, (uint8_t *)column, sizeof *column, status == NB_OK ? sizeof *column : 0));
        PROMISE((status == NB_OK) == (nb_row_name(row, index)[0] != 0) || row->satellite > 63);
    }
}

/* The frames among bytes, one behind the other, where each is a frame by itself. */
static void find(const text *in, text *to) {
    size_t at = 0, size;
    int is_all = 1;
    for (to->n = 0; at < in->n; at += size) {
        size = nb_frame_wanted(in->bytes + at, in->n - at);
        if (size > 3 && size <= in->n - at && nb_is_frame(in->bytes + at, size)) added(to, in->bytes + at, size, &is_all);
        else size = 1;
    }
}

static void frames(run *it, uint32_t call) {
    size_t n, room, size;
    uint8_t *at;
    if (it->deframer == NULL || call == 11) {
        if (it->deframer == NULL) it->deframer = (nb_deframer *)malloc(nb_deframer_size());
        nb_deframer_init(it->deframer);
        it->is_short = 1;
        it->fed.n = it->frames.n = 0;
    }
    if (call == 12) {
        n = bytes(it, STREAM);
        at = lent(it, 1, it->data, n);
        size = nb_deframer_feed(it->deframer, at, n);
        PROMISE(size <= n && (n == 0 || memcmp(at, it->data, n) == 0));
        added(&it->fed, at, size, &it->is_short);
        got(it, call, size);
    } else if (call == 13) {
        room = byte(it) % 4 ? NB_FRAME_MOST : two(it) % 1100;
        at = lent(it, 2, NULL, room);
        size = nb_deframer_next(it->deframer, at, room);
        PROMISE((size == 0 || (size >= 6 && size <= NB_FRAME_MOST)) && kept(it, 2, at, room, size));
        PROMISE(size > room || size == 0 || nb_is_frame(at, size));
        if (size > room) it->is_short = 0;
        added(&it->frames, at, size, &it->is_short);
        got(it, call, size);
    } else if (call == 14) {
        nb_deframer_finish(it->deframer);
        while ((size = nb_deframer_next(it->deframer, it->data, NB_FRAME_MOST)) > 0) added(&it->frames, it->data, size, &it->is_short);
        PROMISE(nb_deframer_feed(it->deframer, it->data, 1) == 0);
        got(it, call, it->frames.n);
        if (it->is_short) {
            find(&it->fed, &it->other);
            PROMISE(it->other.n == it->frames.n && memcmp(it->other.bytes, it->frames.bytes, it->other.n) == 0);
        }
        nb_deframer_init(it->deframer);
        it->is_short = 1;
        it->fed.n = it->frames.n = 0;
    }
}

static void parts(run *it, uint32_t call) {
    if (it->pages == NULL) {
        it->pages = (nb_pages *)malloc(nb_pages_size());
        nb_pages_init(it->pages, number(it));
    }
    if (call == 15) {
        nb_pages_close(it->pages);
        nb_pages_init(it->pages, number(it) * 64);
    } else if (call == 16) {
        const uint32_t how = byte(it), stamp = how < 250 ? 1000 + byte(it) : four(it), satellite = how % 8 ? 1 + how % 3 : number(it);
        const uint32_t signal = how % 16 ? 1 + how / 16 % 2 : number(it);
        uint32_t i = how % 4 == 0;
        /* a page of now, or a part of one of before */
        if (how % 4 == 3) nb_page_write(&it->word, satellite, &it->page);
        for (; i < (how % 4 == 1 ? 1u : 2u); i++) {
            uint8_t *part = lent(it, 1, i ? it->page.odd : it->page.even, 15);
            const nb_status status = nb_pages_take(it->pages, part, stamp + i, satellite, signal);
            PROMISE(is_one_of(status, "OK NO_SATELLITE PAGE_ALERT NO_SIGNAL NO_MEMORY"));
            got(it, call, status);
        }
    } else {
        nb_joined *joined = (nb_joined *)(void *)lent(it, 2, NULL, sizeof *joined);
        const uint32_t is_there = nb_pages_next(it->pages, joined);
        PROMISE(is_there <= 1 && kept(it, 2, (uint8_t *)joined, sizeof *joined, is_there ? sizeof *joined : 0));
        if (is_there) {
            const nb_status status = nb_page_read(&joined->page, 1, &it->word);
            PROMISE(is_one_of(status, "OK WORD_UNUSED WORD_SATELLITE WORD_TIME WORD_SISA"));
            summed(it, joined, sizeof *joined);
        }
        got(it, call, is_there);
    }
}

/* Takes all that waits. */
static void drained(run *it) {
    static const size_t room = 4096;
    size_t n;
    uint8_t *at;
    while (at = lent(it, 2, NULL, room), (n = nb_push_take(it->push, at, at != NULL ? room : 0)) > 0) added(&it->output, at, n, &it->is_whole);
    while (at = lent(it, 2, NULL, room), (n = nb_push_take_report(it->push, at, at != NULL ? room : 0)) > 0) added(&it->report, at, n, &it->is_whole);
}

/* The input has ended at this status, and nothing was lost: all is as nb_convert makes it of the whole. */
static void compared(run *it) {
    nb_bytes given[WORDS];
    char all[256], *at = all, *end;
    size_t n = 0, used, report_used;
    nb_status status;
    strcpy(all, jobs[it->job]);
    for (; at != NULL; at = end != NULL ? end + 1 : NULL) {
        end = strchr(at, '|');
        given[n].at = (const uint8_t *)at;
        given[n++].size = end != NULL ? (size_t)(end - at) : strlen(at);
    }
    status = nb_convert(given, n, it->pushed.bytes, it->pushed.n, it->other.bytes, sizeof it->other.bytes, &used, it->more.bytes,
                        sizeof it->more.bytes, &report_used);
    PROMISE(status == it->status);
    PROMISE(used == it->output.n && memcmp(it->other.bytes, it->output.bytes, used) == 0);
    PROMISE(report_used == it->report.n && memcmp(it->more.bytes, it->report.bytes, report_used) == 0);
}

static void pushes(run *it, uint32_t call) {
    nb_bytes given[WORDS];
    nb_status status;
    size_t n;
    uint8_t *at;
    if (it->push == NULL || call == 19) {
        if (it->push == NULL) it->push = (nb_push_state *)malloc(nb_push_size());
        else nb_push_close(it->push);
        n = words(it, given, &it->job);
        status = nb_push_open(it->push, given, n);
        got(it, 19, status);
        PROMISE(is_one_of(status, "OK NO_JOB NO_MEMORY NO_TEXT NOT_PUSHED"));
        PROMISE(it->job < 0 || status == NB_NO_MEMORY || status == (it->job < PUSHED ? NB_OK : NB_NOT_PUSHED));
        it->status = status;
        it->is_whole = status == NB_OK && it->job >= 0;
        it->pushed.n = it->output.n = it->report.n = 0;
    }
    if (call == 20) {
        n = bytes(it, kind_of(it->job));
        at = lent(it, 1, it->data, n);
        status = nb_push(it->push, at, n);
        got(it, call, status);
        PROMISE(it->status != NB_OK ? status == it->status : is_one_of(status, "OK NOT_THIS_FORM NO_MEMORY"));
        PROMISE(n == 0 || memcmp(at, it->data, n) == 0);
        if (status != NB_OK) it->is_whole = 0;
        added(&it->pushed, at, n, &it->is_whole);
        it->status = status;
    } else if (call == 21) {
        status = nb_push_finish(it->push);
        got(it, call, status);
        PROMISE(it->status != NB_OK ? status == it->status : is_one_of(status, "OK NOT_THIS_FORM NO_MEMORY"));
        if (it->status == NB_OK) {
            const int is_new = it->is_whole;
            it->status = status;
            drained(it);
            if (is_new && it->is_whole && (status == NB_OK || status == NB_NOT_THIS_FORM)) {
                const int some = refused_some;
                refuse_next(-1);
                compared(it);
                refused_some = some;
            }
            it->status = status == NB_OK ? NB_ENDED : status;
        }
        it->is_whole = 0;
        PROMISE(nb_push_finish(it->push) == it->status && nb_push(it->push, it->data, 1) == it->status);
    } else if (call == 22 || call == 23) {
        const size_t room = number(it) * 8 % 4096;
        at = lent(it, 2, NULL, room);
        n = (call == 22 ? nb_push_take : nb_push_take_report)(it->push, at, room);
        PROMISE(n <= room && kept(it, 2, at, room, n));
        added(call == 22 ? &it->output : &it->report, at, n, &it->is_whole);
        got(it, call, n);
    } else if (call == 24) {
        nb_push_close(it->push);
        it->status = NB_CLOSED;
        it->is_whole = 0;
        PROMISE(nb_push_take(it->push, it->data, 1) == 0 && nb_push(it->push, it->data, 1) == NB_CLOSED);
    }
}

/* Elsewhere in memory, as memcpy leaves it. */
static void *moved(void *old, size_t n) {
    void *at = old != NULL ? malloc(n) : NULL;
    if (at != NULL) memcpy(at, old, n);
    free(old);
    return at;
}

/* The contents of subframes and words are those of the item, and one number of one of them is changed. */
static void changed(run *it) {
    const uint32_t which = byte(it), value = byte(it) % 4 ? number(it) : four(it);
    if (which % 4 == 0) {
        nb_subframe *to = &it->subframe;
        to->number = 1 + which / 4 % 5;
        to->clock = it->item.gps.clock;
        to->side = it->item.gps.side;
        to->a = it->item.gps.a;
        to->b = it->item.gps.b;
        to->wn = 100;
        to->fit = it->item.gps.fit;
        to->ion = it->item.ion.gps;
    } else if (which % 4 == 1) {
        nb_word *to = &it->word;
        to->number = 1 + which / 4 % 6;
        to->w1 = it->item.gal.w1;
        to->w2 = it->item.gal.w2;
        to->w3 = it->item.gal.w3;
        to->w4 = it->item.gal.w4;
        to->health = it->item.gal.health;
        to->ion = it->item.ion.gal;
        to->wn = 1000;
        to->second = value;
    } else {
        uint8_t *at = which % 4 == 2 ? (uint8_t *)&it->item : which % 8 == 3 ? (uint8_t *)&it->subframe : (uint8_t *)&it->word;
        const size_t n = which % 4 == 2 ? sizeof it->item : which % 8 == 3 ? sizeof it->subframe : sizeof it->word;
        memcpy(at + byte(it) * 4 % n, &value, sizeof value);
    }
}

static void others(run *it, uint32_t call) {
    if (call == 25) {
        const nb_status status = (nb_status)(byte(it) % 128);
        const char *name = nb_status_name(status), *about = nb_status_text(status);
        got(it, call, strlen(name));
        PROMISE((strncmp(name, "NB_", 3) == 0) == (strcmp(about, "unknown status") != 0) && nb_version() == NB_VERSION);
    } else if (call == 26) {
        it->deframer = (nb_deframer *)moved(it->deframer, nb_deframer_size());
        it->pages = (nb_pages *)moved(it->pages, nb_pages_size());
        it->push = (nb_push_state *)moved(it->push, nb_push_size());
    } else if (call == 27) {
        refuse_next(byte(it) % 4 ? (long)(byte(it) % 64) : -1);
        it->is_whole = it->is_whole && !refused_some;
    } else {
        changed(it);
    }
}

/* All calls of an input. */
static void ran(run *it, const uint8_t *input, size_t n) {
    uint8_t *slots[SLOTS], *const outcomes = it->seen;
    const uint64_t calls = it->calls;
    int i;
    memcpy(slots, it->slots, sizeof slots);
    memset(it, 0, sizeof *it);
    memcpy(it->slots, slots, sizeof slots);
    it->calls = calls;
    it->seen = outcomes;
    it->at = input;
    it->end = input + n;
    it->word.number = 5;
    refuse_from(-1);
    if (n_samples > 0) {
        const size_t first = sample(byte(it), PAYLOAD);
        nb_message_read(samples[first].at, samples[first].n, 2295, &it->item);
    }
    for (i = 0; it->at < it->end && i < 200; i++) {
        const uint32_t call = byte(it) % CALLS;
        if (call == 0) converts(it);
        else if (call <= 4) messages(it, call);
        else if (call <= 6) subframes(it, call);
        else if (call <= 8) words_of_pages(it, call);
        else if (call <= 10) records(it, call);
        else if (call <= 14) frames(it, call);
        else if (call <= 17) parts(it, call);
        else if (call == 18 && it->pages != NULL) nb_pages_close(it->pages);
        else if (call <= 24) pushes(it, call);
        else if (call <= 30) others(it, call);
        else if (call == 31) messages(it, call);
        else if (call <= 33) joins(it, call);
        else if (call <= 35) files(it, call);
        else if (call >= 37) rows(it, call);
        else got(it, call, nb_week_of_unix((uint64_t)four(it) << byte(it) % 33) % 99);
    }
    refuse_next(-1);
    if (it->push != NULL) {
        pushes(it, 21);
        nb_push_close(it->push);
    }
    if (it->deframer != NULL) frames(it, 14);
    if (it->pages != NULL) nb_pages_close(it->pages);
    free(it->push);
    free(it->deframer);
    free(it->pages);
    PROMISE(requests_held() == 0);
}

static void is_sample(const uint8_t *at, size_t n, kind kind) {
    if (n == 0 || n_samples == SAMPLES) return;
    samples[n_samples].kind = kind;
    samples[n_samples].at = at;
    samples[n_samples++].n = n < MOST ? n : MOST;
}

/* The sample files, and their parts. */
static void begin(void) {
    char *names = getenv("SAMPLES") != NULL ? strdup(getenv("SAMPLES")) : NULL, *name;
    for (name = names != NULL ? strtok(names, ":") : NULL; name != NULL; name = strtok(NULL, ":")) {
        uint8_t *at = (uint8_t *)malloc(1 << 20);
        FILE *file = fopen(name, "rb");
        size_t n = file != NULL && at != NULL ? fread(at, 1, 1 << 20, file) : 0, i, from = 0;
        int is_new = 0; /* of RINEX 4 */
        kind of;
        if (file == NULL) fprintf(stderr, "no file %s\n", name), exit(2);
        fclose(file);
        name = strrchr(name, '.');
        of = strcmp(name, ".rtcm3") == 0 ? STREAM : strcmp(name, ".navcap") == 0 ? CAPTURE : NAVIGATION;
        is_sample(at, n, of);
        for (i = 0; i < n; i++) {
            const size_t size = nb_frame_wanted(at + i, n - i);
            if (size > 3 && size <= n - i && nb_is_frame(at + i, size)) is_sample(at + i + 3, size - 6, PAYLOAD);
            if (of != NAVIGATION || i == 0 || at[i - 1] != '\n') continue;
            if (at[i] != '>' && (is_new || (at[i] != 'G' && at[i] != 'E'))) continue;
            is_new |= at[i] == '>';
            if (from > 0) is_sample(at + from, i - from, RECORD);
            from = i;
        }
        if (from > 0) is_sample(at + from, n - from, RECORD);
    }
    free(names);
}

static run *opened(void) {
    run *it = (run *)calloc(1, sizeof *it);
    PROMISE(it != NULL);
    it->seen = seen;
#ifndef HEAP
    for (int i = 0; i < SLOTS; i++) {
        uint8_t *at = (uint8_t *)mmap(NULL, ROOM + 2 * GUARD, PROT_NONE, MAP_PRIVATE | MAP_ANONYMOUS, -1, 0);
        PROMISE(at != MAP_FAILED && mprotect(at + GUARD, ROOM, PROT_READ | PROT_WRITE) == 0);
        it->slots[i] = at + GUARD;
    }
#endif
    return it;
}

#ifdef ALONE
enum { INPUT = 2048, THREADS = 8 };
typedef struct turn {
    pthread_t thread;
    run *it;
    uint64_t seed, sum, inputs;
    double seconds;
} turn;

static uint64_t next(uint64_t *seed) {
    *seed ^= *seed << 13;
    *seed ^= *seed >> 7;
    return *seed ^= *seed << 17;
}

static void *turns(void *of) {
    turn *it = (turn *)of;
    uint8_t *input = (uint8_t *)malloc(INPUT);
    struct timespec now, first;
    clock_gettime(CLOCK_MONOTONIC, &first);
    do {
        size_t n = (size_t)(next(&it->seed) % INPUT), i;
        for (i = 0; i < n; i++) input[i] = (uint8_t)(next(&it->seed) >> 32);
        ran(it->it, input, n);
        it->sum = (it->sum ^ it->it->sum) * 1099511628211u;
        it->inputs++;
        clock_gettime(CLOCK_MONOTONIC, &now);
    } while (it->seconds > 0 ? (double)(now.tv_sec - first.tv_sec) < it->seconds : it->inputs < (uint64_t)-it->seconds);
    free(input);
    return NULL;
}

int main(int count, char **words) {
    static turn all[THREADS];
    uint64_t calls = 0, outcomes = 0;
    int i, k, n = count == 4 ? atoi(words[3]) : 0;
    if (n < 1 || n > THREADS) return 2;
    begin();
    for (i = 0; i < n; i++) {
        all[i].it = opened();
        if (i > 0) all[i].it->seen = (uint8_t *)calloc(1, sizeof seen);
        all[i].seed = strtoull(words[1], NULL, 10) * 2654435769u + 1;
        all[i].seconds = atof(words[2]);
        if (pthread_create(&all[i].thread, NULL, turns, &all[i]) != 0) return 2;
    }
    for (i = 0; i < n; i++) {
        pthread_join(all[i].thread, NULL);
        calls += all[i].it->calls;
        /* threads that have run as many inputs have the same of each */
        if (all[i].inputs == all[0].inputs) PROMISE(all[i].sum == all[0].sum);
    }
    for (k = 0; k < (int)sizeof seen; k++) outcomes += seen[k];
    printf("%llu inputs, %llu calls, %llu outcomes, %d threads\n", (unsigned long long)all[0].inputs, (unsigned long long)calls,
           (unsigned long long)outcomes, n);
    for (k = 0; getenv("OUTCOMES") != NULL && k < (int)sizeof seen; k++)
        if (seen[k]) printf("%d %d\n", k / 128, k % 128);
    return 0;
}
#else
int LLVMFuzzerTestOneInput(const uint8_t *input, size_t n);
int LLVMFuzzerTestOneInput(const uint8_t *input, size_t n) {
    static run *it;
    if (it == NULL) {
        begin();
        it = opened();
    }
    ran(it, input, n);
    return 0;
}
#endif
