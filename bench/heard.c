/* The plain program that bench/jobs.sh and bench/instructions.sh compare with on captures.
 *
 *   heard rinex DATE LEAP [WEEK]   capture to rinex
 *   heard rtcm [WEEK]              capture to rtcm
 *   heard list [WEEK]              capture to list
 *
 * Standard input is read; output and report are those of navbridge, byte for byte, but for lines R, which it counts as
 * unused. WEEK is wanted where the first line names none.
 */
#include "assembly.h"

#define ROOM (1 << 18)

static char in_bytes[ROOM + 4096];
static unsigned long long lines, malformed, late, refused, unused;

static void say(const char *reason, int number) {
    if (number) fprintf(stderr, "line %llu %s %d\n", lines, reason, number);
    else fprintf(stderr, "line %llu %s\n", lines, reason);
}

/* sixteen digits as eight bytes; whether they are digits */
static inline int hex_sixteen(const char *text, uint8_t *into) {
    __m128i t = _mm_loadu_si128((const __m128i *)text);
    __m128i digit = _mm_sub_epi8(t, _mm_set1_epi8('0'));
    __m128i letter = _mm_sub_epi8(_mm_or_si128(t, _mm_set1_epi8(32)), _mm_set1_epi8('a'));
    __m128i is_digit = _mm_cmpeq_epi8(_mm_min_epu8(digit, _mm_set1_epi8(9)), digit);
    __m128i is_letter = _mm_cmpeq_epi8(_mm_min_epu8(letter, _mm_set1_epi8(5)), letter);
    __m128i value = _mm_or_si128(_mm_and_si128(is_digit, digit),
                                 _mm_and_si128(is_letter, _mm_add_epi8(letter, _mm_set1_epi8(10))));
    __m128i pairs = _mm_maddubs_epi16(value, _mm_set1_epi16(0x0110));
    _mm_storel_epi64((__m128i *)into, _mm_packus_epi16(pairs, pairs));
    return _mm_movemask_epi8(_mm_or_si128(is_digit, is_letter)) == 0xFFFF;
}

static inline uint64_t eight_at(const uint8_t *bytes) {
    uint64_t eight;
    memcpy(&eight, bytes, 8);
    return __builtin_bswap64(eight);
}

static void subframe(uint8_t *bytes, int sat, uint32_t stamp) {
    uint32_t sent[10], source[10];
    if (bytes[0] == 0x74) for (int i = 0; i < 38; i++) bytes[i] ^= 255;
    if (bytes[0] != 0x8B) { refused++; say("preamble", 0); return; }
#pragma GCC unroll 10
    for (int word = 0; word < 10; word++) sent[word] = eight_at(bytes + 30 * word / 8) >> (34 - 30 * word % 8) & 0x3FFFFFFF;
    int bad = read_words(sent, source);
    if (bad) { refused++; say("parity", bad); return; }
    const char *reason = take_subframe(source, sat, stamp);
    if (!reason) return;
    if (!*reason) unused++;
    else { refused++; say(reason, 0); }
}

/* a line without its end, behind which 100 bytes can be read; whether it has the form of one */
static inline int take_line(const char *p, const char *end) {
    uint64_t stamp = 0;
    const char *from = p;
    for (unsigned digit; (digit = (unsigned char)*p - '0') < 10; p++) stamp = 10 * stamp + digit;
    if (p == from || p - from > 10 || stamp > UINT32_MAX) return 0;
    if (p[0] != ' ' || p[2] != ' ') return 0;
    if (p[1] == 'R') {
        if (is_late(stamp)) { late++; say("late", 0); }
        else unused++;
        return 1;
    }
    unsigned tens = (unsigned char)p[4] - '0', ones = (unsigned char)p[5] - '0', sat = 10 * tens + ones;
    if (tens > 9 || ones > 9 || sat == 0 || p[6] != ' ') return 0;
    uint8_t bytes[48];
    if (p[1] == 'P') {
        if (end - p != 39 || p[3] != 'E' || sat > 36 || (p[7] != 'B' && p[7] != '5') || p[8] != ' ') return 0;
        if (!(hex_sixteen(p + 9, bytes) & hex_sixteen(p + 23, bytes + 7))) return 0;
        if (is_late(stamp)) { late++; say("late", 0); return 1; }
        bytes[15] = 0;
        const char *reason = take_half(eight_at(bytes), eight_at(bytes + 8), sat, p[7] == '5', stamp);
        if (reason) {
            if (!*reason) unused++;
            else { refused++; say(reason, 0); }
        }
    } else {
        if (p[1] != 'L' || end - p != 83 || p[3] != 'G' || sat > 32) return 0;
        if (!(hex_sixteen(p + 7, bytes) & hex_sixteen(p + 23, bytes + 8) & hex_sixteen(p + 39, bytes + 16) &
              hex_sixteen(p + 55, bytes + 24) & hex_sixteen(p + 67, bytes + 30))) return 0;
        if (is_late(stamp)) { late++; say("late", 0); return 1; }
        subframe(bytes, sat, stamp);
    }
    close_risen();
    return 1;
}

static int is_skipped(const char *p, const char *end) {
    if (p < end && *p == '#') return end - p <= 2200;
    while (p < end && (*p == ' ' || *p == '\t')) p++;
    return p == end;
}

/* the first line: `NAVCAP 1`, or `NAVCAP 2 <week> <window>` */
static void first_line(const char *p, const char *end, const char *week) {
    char text[64];
    int named = 0, w = 0, length = end - p < 63 ? end - p : 63;
    memcpy(text, p, length);
    text[length] = 0;
    if (sscanf(text, "NAVCAP 2 %d %d", &named, &w) == 2) window = w;
    else if (strcmp(text, "NAVCAP 1") || !week) exit(5);
    if (named && week && named != atoi(week)) exit(5);
    reference = named ? named : atoi(week);
}

int main(int count, char **words) {
    fill_tables();
    fill_parity();
    fill_keys();
    int is_rinex = count >= 4 && !strcmp(words[1], "rinex");
    if (!is_rinex && (count < 2 || (strcmp(words[1], "rtcm") && strcmp(words[1], "list")))) return 2;
    to_rtcm = !strcmp(words[1], "rtcm");
    to_list = !strcmp(words[1], "list");
    const char *week = count > (is_rinex ? 4 : 2) ? words[is_rinex ? 4 : 2] : NULL;
    size_t held = 0;
    for (int ended = 0; !ended;) {
        ssize_t some = read(0, in_bytes + held, ROOM - held);
        if (some < 0) return 3;
        held += some;
        if (some == 0) {
            ended = 1;
            if (held) in_bytes[held++] = '\n';
        }
        const char *p = in_bytes, *until = in_bytes + held, *end;
        while ((end = memchr(p, '\n', until - p))) {
            const char *last = end > p && end[-1] == '\r' ? end - 1 : end;
            lines++;
            if (lines == 1) {
                first_line(p, last, week);
                if (is_rinex) out_header("4.01", words[2], atoi(words[3]));
            } else if (!take_line(p, last) && !is_skipped(p, last)) { malformed++; say("malformed", 0); }
            p = end + 1;
        }
        held = until - p;
        memmove(in_bytes, p, held);
    }
    if (lines == 0) return 5;
    close_before(UINT64_MAX);
    out_flush();
    fprintf(stderr, "lines %llu\nmalformed %llu\nlate %llu\nrefused %llu\nunused %llu\nwhole %llu\npartial %llu\n"
            "contradicted %llu\nnohealth %llu\nagain %llu\n", lines, malformed, late, refused, unused, whole, partial,
            contradicted, nohealth, again);
    return 0;
}
