/* The plain program that bench/instructions.sh compares with on UBX logs.
 *
 *   logs capture            a log to its capture, as navlog --from ubx
 *   logs rinex DATE LEAP    a log to rinex, as navconvert: without the text of the capture between
 *
 * Standard input is read; the output is that of the programs, byte for byte, and of the report only the counts.
 */
#include "assembly.h"

enum { ROOM = 1 << 18, LONGEST = 65543, MOST = 1024 };

static uint8_t in_bytes[ROOM + 64];
static int to_capture, has_time;
static int64_t last_time, base = -1;
static unsigned long long messages, skipped, times, subframes, pages, refused, others, turned, bad_parity;
static unsigned long long lines, read_refused, read_unused;

/* a subframe or page that waits for its time */
struct waiting { uint8_t kind, sat, signal; uint32_t words[10]; }; /* kind 0: refused */
static struct waiting waits[MOST + 1];
static int waits_held;

/* both sums of the checksum, sixteen bytes at a time */
static inline unsigned sums_of(const uint8_t *p, size_t count) {
    __m128i a = _mm_setzero_si128(), b = a, before = a;
    const __m128i weights = _mm_setr_epi8(16, 15, 14, 13, 12, 11, 10, 9, 8, 7, 6, 5, 4, 3, 2, 1), one = _mm_set1_epi16(1);
    const __m128i zero = _mm_setzero_si128();
    for (; count >= 16; p += 16, count -= 16) {
        __m128i x = _mm_loadu_si128((const __m128i *)p);
        before = _mm_add_epi64(before, a);
        a = _mm_add_epi64(a, _mm_sad_epu8(x, zero));
        b = _mm_add_epi32(b, _mm_madd_epi16(_mm_maddubs_epi16(x, weights), one));
    }
    b = _mm_add_epi32(b, _mm_srli_si128(b, 8));
    b = _mm_add_epi32(b, _mm_srli_si128(b, 4));
    before = _mm_add_epi64(before, _mm_srli_si128(before, 8));
    a = _mm_add_epi64(a, _mm_srli_si128(a, 8));
    unsigned low = _mm_cvtsi128_si32(a), high = _mm_cvtsi128_si32(b) + 16 * (unsigned)_mm_cvtsi128_si32(before);
    for (; count > 0; p++, count--) { low += *p; high += low; }
    return (low & 255) | (high & 255) << 8;
}

static inline uint32_t four(const uint8_t *p) { uint32_t it; memcpy(&it, p, 4); return it; }

/* the words as sent; whether all are right */
static int words_as_sent(uint32_t *w, uint32_t *source) {
    static const uint32_t masks[3] = {0, 0x3FFFFFC0, 0x3FFFFFFF};
    for (int k = 0; k < 3; k++) {
        uint32_t read[10], last = 0;
        for (int i = 0; i < 10; i++) last = read[i] = w[i] ^ (last & 1 ? masks[k] : 0);
        if (read_words(read, source)) continue;
        turned += k > 0;
        memcpy(w, read, sizeof read);
        return 1;
    }
    bad_parity++;
    return 0;
}

static void say(const char *reason) {
    if (!reason) return;
    if (*reason) read_refused++;
    else read_unused++;
}

static void give(const struct waiting *it, int is_timed, int64_t time) {
    if (!it->kind || !is_timed) { refused++; return; }
    int64_t first = it->kind == 2 ? time - 1 : time;
    if (base < 0) {
        base = (first - 7200) / WEEK_SECONDS;
        if (first < 7200) base = 0;
        reference = base;
        if (to_capture) {
            char *text = out_room(64);
            out_held += sprintf(text, "NAVCAP 2 %d 7200\n", (int)base);
        }
        base *= WEEK_SECONDS;
        lines = 1;
    }
    if (first < base || time >= base + 512 * (int64_t)WEEK_SECONDS) { refused++; return; }
    uint32_t stamp = time - base;
    if (it->kind == 1) {
        uint32_t w[10], source[10];
        memcpy(w, it->words, sizeof w);
        int good = words_as_sent(w, source);
        subframes++;
        lines++;
        if (!to_capture) {
            if (is_late(stamp)) return;
            if (good && source[0] >> 16 == 0x8B) say(take_subframe(source, it->sat, stamp));
            else if (good && source[0] >> 16 == 0x74) {
                for (int i = 0; i < 10; i++) source[i] ^= 0xFFFFFF;
                say(take_subframe(source, it->sat, stamp));
            }
            else read_refused++;
            close_risen();
            return;
        }
        /* ten words of 30 bits as 38 bytes: four times eight bytes, four, and two */
        uint64_t a = (uint64_t)w[0] << 34 | (uint64_t)w[1] << 4 | w[2] >> 26,
                 b = (uint64_t)w[2] << 38 | (uint64_t)w[3] << 8 | w[4] >> 22,
                 c = (uint64_t)w[4] << 42 | (uint64_t)w[5] << 12 | w[6] >> 18,
                 d = (uint64_t)w[6] << 46 | (uint64_t)w[7] << 16 | w[8] >> 14,
                 e = (uint64_t)w[8] << 50 | (uint64_t)w[9] << 20;
        uint64_t bytes[8] = {__builtin_bswap64(a), __builtin_bswap64(b), __builtin_bswap64(c), __builtin_bswap64(d),
                             __builtin_bswap64(e)};
        char *into = put_begin(out_room(160), stamp, 'L', 'G', it->sat);
        put_hex(into, (uint8_t *)bytes, 38);
        into[76] = '\n';
        out_held = into + 77 - out_bytes;
        return;
    }
    pages++;
    lines += 2;
    uint64_t halves[4];
    for (int i = 0; i < 4; i++) halves[i] = (uint64_t)it->words[2 * i] << 32 | it->words[2 * i + 1];
    if (!to_capture) {
        for (int i = 0; i < 2; i++) {
            if (is_late(stamp - 1 + i)) continue;
            say(take_half(halves[2 * i], halves[2 * i + 1] & ~(uint64_t)255, it->sat, it->signal, stamp - 1 + i));
            close_risen();
        }
        return;
    }
    for (int i = 0; i < 4; i++) halves[i] = __builtin_bswap64(halves[i]);
    for (int i = 0; i < 2; i++) {
        char *into = put_begin(out_room(80), stamp - 1 + i, 'P', 'E', it->sat);
        into[0] = it->signal ? '5' : 'B';
        into[1] = ' ';
        put_hex(into + 2, (uint8_t *)(halves + 2 * i), 15);
        into[32] = '\n';
        out_held = into + 33 - out_bytes;
    }
}

static void settle(int is_timed, int64_t time) {
    for (int i = 0; i < waits_held; i++) give(&waits[i], is_timed, time);
    waits_held = 0;
}

static void put_time(int known, int64_t time) {
    times++;
    int is_timed = has_time && known && last_time <= time + 1 && time <= last_time + 60;
    settle(is_timed, last_time);
    has_time = known;
    last_time = time;
}

static int is_week(uint32_t week) { return week >= 1025 && week <= 8191; }

static void time_in(uint32_t week, uint32_t milliseconds) {
    int known = is_week(week) && milliseconds < 604800000;
    put_time(known, WEEK_SECONDS * (int64_t)week + (milliseconds + 500) / 1000);
}

static void take_message(const uint8_t *m, unsigned payload) {
    const uint8_t *p = m + 6;
    unsigned which = m[2] << 8 | m[3];
    messages++;
    if (which == 0x0215) {
        double second;
        if (payload < 16) { put_time(0, 0); return; }
        memcpy(&second, p, 8);
        uint32_t week = p[8] | p[9] << 8;
        int known = is_week(week) && second >= 0 && second < 604800;
        put_time(known, known ? WEEK_SECONDS * (int64_t)week + (int64_t)(second + 0.5) : 0);
    } else if (which == 0x0120) {
        if (payload < 12 || (p[11] & 3) != 3) put_time(0, 0);
        else time_in(p[8] | p[9] << 8, four(p));
    } else if (which == 0x0107) put_time(0, 0); /* none is in the logs of the figures */
    else if (which == 0x0213) {
        struct waiting *it = &waits[waits_held];
        it->kind = 0;
        if (payload >= 8) {
            it->sat = p[1];
            it->signal = p[2] == 5;
            if (p[0] == 0 && p[2] == 0) {
                if (p[4] == 10 && payload == 48 && p[1] >= 1 && p[1] <= 32) {
                    it->kind = 1;
                    for (int i = 0; i < 10; i++) it->words[i] = four(p + 8 + 4 * i) & 0x3FFFFFFF;
                }
            } else if (p[0] == 2 && (p[2] <= 1 || p[2] == 5)) {
                if (p[4] >= 8 && payload == 8u + 4 * p[4] && p[1] >= 1 && p[1] <= 36) {
                    it->kind = 2;
                    memcpy(it->words, p + 8, 32);
                }
            } else { others++; return; }
        }
        waits_held++;
        if (waits_held > MOST || !has_time) { settle(0, 0); has_time = 0; }
    } else others++;
}

static void read_log(void) {
    size_t held = 0;
    for (int ended = 0;;) {
        size_t at = 0;
        while (at < held) {
            const uint8_t *p = in_bytes + at;
            if (*p != 0xB5) {
                const uint8_t *next = memchr(p, 0xB5, held - at);
                size_t to = next ? (size_t)(next - in_bytes) : held;
                skipped += to - at;
                at = to;
                continue;
            }
            if (held - at >= 2 && p[1] != 0x62) { skipped++; at++; continue; }
            unsigned payload = held - at >= 6 ? p[4] | p[5] << 8 : 0, size = payload + 8;
            if (held - at < 6 || held - at < size) {
                if (!ended) break;
                skipped++;
                at++;
                continue;
            }
            if (sums_of(p + 2, payload + 4) == (unsigned)(p[size - 2] | p[size - 1] << 8)) {
                take_message(p, payload);
                at += size;
            } else { skipped++; at++; }
        }
        if (ended) break;
        memmove(in_bytes, in_bytes + at, held - at);
        held -= at;
        ssize_t some = read(0, in_bytes + held, ROOM - held);
        if (some < 0) exit(3);
        if (some == 0) ended = 1;
        held += some;
    }
    settle(0, 0);
}

int main(int count, char **words) {
    fill_tables();
    fill_parity();
    fill_keys();
    to_capture = count == 2 && !strcmp(words[1], "capture");
    if (!to_capture && (count != 4 || strcmp(words[1], "rinex"))) return 2;
    if (!to_capture) out_header("4.01", words[2], atoi(words[3]));
    read_log();
    if (!to_capture) {
        if (base < 0) return 5;
        close_before(UINT64_MAX);
        fprintf(stderr, "lines %llu\nmalformed 0\nlate 0\nrefused %llu\nunused %llu\nwhole %llu\npartial %llu\n"
                "contradicted %llu\nnohealth %llu\nagain %llu\n", lines, read_refused, read_unused, whole, partial,
                contradicted, nohealth, again);
    }
    out_flush();
    fprintf(stderr, "messages %llu\nskipped %llu\ntimes %llu\nsubframes %llu\npages %llu\nrefused %llu\nother %llu\n"
            "turned %llu\nparity %llu\n", messages, skipped, times, subframes, pages, refused, others, turned, bad_parity);
    return 0;
}
