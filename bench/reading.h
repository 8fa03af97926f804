/* Number texts of 19 columns read at a scale: by one product, and in exact arithmetic where that does not decide. */
#include "records.h"
#include <smmintrin.h>

/* by scale and place: a number of 13 digits x times / 2^shift is n, or less than 2^46 / 2^shift below it; shift 0 where every
 * number of 13 digits there is past all widths */
static uint64_t times_of[SCALES][64];
static uint8_t shift_of[SCALES][64];

static void fill_times(void) {
    for (int which = 0; which < SCALES; which++)
        for (int place = 0; place < 64; place++) {
            const struct scale *s = &scales[which];
            wide over, under;
            size_of(s, &under, &over); /* scale x 10^20 = under / over */
            int tens = place - 32 + 20, shift = 0;
            wide top = over, low = under;
            /* 10^(place - 32) / scale is top x 10^tens / low x 2^-shift; what is left out is below four in 2^63 of it */
            while (low >> 64) { low = (low >> 1) + (low & 1); shift++; }
            while (!(low >> 63)) { low <<= 1; shift--; }
            for (; tens > 0; tens--) {
                while (top >> 120) { top >>= 1; shift--; }
                top *= 10;
            }
            while (!(top >> 127)) { top <<= 1; shift++; }
            for (; tens < 0; tens++) {
                top /= 10;
                while (!(top >> 127)) { top <<= 1; shift++; }
            }
            wide quotient = top / low;
            while (quotient >> 64) { quotient >>= 1; shift--; }
            while (!(quotient >> 63)) { quotient <<= 1; shift++; }
            times_of[which][place] = shift > 127 ? 0 : quotient;
            shift_of[which][place] = shift < 66 ? 0 : shift > 127 ? 127 : shift;
        }
}

/* numbers of many words, lowest first */
enum { LIMBS = 40 };
struct big { uint32_t limbs[LIMBS]; };
static void big_times(struct big *b, uint32_t factor) {
    uint64_t over = 0;
    for (int i = 0; i < LIMBS; i++) { over += (uint64_t)b->limbs[i] * factor; b->limbs[i] = over; over >>= 32; }
}
static int big_compare(const struct big *a, const struct big *b) {
    for (int i = LIMBS - 1; i >= 0; i--) if (a->limbs[i] != b->limbs[i]) return a->limbs[i] < b->limbs[i] ? -1 : 1;
    return 0;
}

/* whether digits x 10^tens lies below, on or above (n + 1/2) x scale */
static int beside_half(uint64_t digits, int tens, uint64_t n, const struct scale *s) {
    struct big a = {{digits, digits >> 32}}, b = {{2 * n + 1, (2 * n + 1) >> 32}};
    big_times(&a, 2);
    for (int i = 0; i < tens - s->ten + (s->pi ? 13 : 0); i++) big_times(&a, 10);
    for (int i = 0; i < -(tens - s->ten + (s->pi ? 13 : 0)); i++) big_times(&b, 10);
    for (int i = 0; i < -s->two; i++) big_times(&a, 2);
    for (int i = 0; i < s->two; i++) big_times(&b, 2);
    big_times(&b, s->factor);
    if (s->pi) { big_times(&b, 58754634); big_times(&b, 534697); } /* 31415926535898 */
    return big_compare(&a, &b);
}

static int rejected;

/* a text of digits, point and exponent in any place; of at most 18 digits */
static int read_slow(const char *p, const char *end, uint64_t *digits, int *tens, int *negative) {
    while (p < end && *p == ' ') p++;
    while (end > p && end[-1] == ' ') end--;
    if (p == end) return 0;
    *negative = *p == '-';
    if (*p == '-' || *p == '+') p++;
    *digits = *tens = 0;
    int count = 0, point = 0;
    for (; p < end; p++) {
        if (*p == '.' && !point) point = 1;
        else if ((unsigned char)(*p - '0') < 10) { *digits = 10 * *digits + (*p - '0'); count++; *tens -= point; }
        else break;
    }
    if (!count || count > 18) return 0;
    if (p < end) {
        if ((*p | 32) != 'd' && (*p | 32) != 'e') return 0;
        int exponent = 0, down = *++p == '-';
        if (*p == '-' || *p == '+') p++;
        if (p == end || end - p > 3) return 0;
        for (; p < end; p++) { if ((unsigned char)(*p - '0') > 9) return 0; exponent = 10 * exponent + (*p - '0'); }
        *tens += down ? -exponent : exponent;
    }
    return 1;
}

/* the number of 19 columns at a scale; what no width holds is told by `rejected` */
static inline int64_t number_at(const char *p, int which) {
    uint64_t digits;
    int place, negative = p[0] == '-';
    /* the exponent's two digits, none, the first, and twelve behind the point: each is one byte, then two are one, and so on */
    __m128i text = _mm_loadu_si128((const __m128i *)(p + 3)); /* p[3] .. p[18] */
    const __m128i places = _mm_setr_epi8(14, 15, -1, -1, 0, 1, 2, 3, 4, 5, 6, 7, 8, 9, 10, 11);
    __m128i all = _mm_insert_epi8(_mm_shuffle_epi8(text, places), p[1], 3);
    all = _mm_sub_epi8(all, _mm_setr_epi8(48, 48, 0, 48, 48, 48, 48, 48, 48, 48, 48, 48, 48, 48, 48, 48));
    int wrong = ~_mm_movemask_epi8(_mm_cmpeq_epi8(_mm_min_epu8(all, _mm_set1_epi8(9)), all)) & 0xFFFF;
    uint32_t rest_of;
    memcpy(&rest_of, p + 15, 4);
    int sign = rest_of >> 8 & 255;
    if (__builtin_expect(!wrong && p[2] == '.' && (p[0] == ' ' || negative) && ((rest_of | 33) & 255) == 'e' &&
                         (sign == '+' || sign == '-'), 1)) {
        __m128i pairs = _mm_maddubs_epi16(all, _mm_set1_epi16(0x010A));
        __m128i fours = _mm_madd_epi16(pairs, _mm_setr_epi16(0, 1, 100, 1, 100, 1, 100, 1));
        __m128i eights = _mm_madd_epi16(_mm_packus_epi32(fours, fours), _mm_setr_epi16(10000, 1, 10000, 1, 0, 0, 0, 0));
        uint64_t two = _mm_cvtsi128_si64(eights);
        int exponent = _mm_cvtsi128_si32(pairs) & 0xFFFF;
        digits = (two & 0xFFFFFFFF) * 100000000 + (two >> 32);
        place = sign == '-' ? 20 - exponent : 20 + exponent;
    } else {
        int ten;
        if (!read_slow(p, p + 19, &digits, &ten, &negative)) { rejected = 1; return 0; }
        if (digits == 0) return 0;
        /* of more than 13 digits the rest is left out: a number so near to a half is none that was written */
        while (digits >= 10000000000000) { digits /= 10; ten++; }
        while (digits < 1000000000000) { digits *= 10; ten--; }
        place = ten + 32;
    }
    if (digits == 0 || place < 0) return 0;
    if (__builtin_expect(place > 63 || !shift_of[which][place], 0)) { rejected = 1; return 0; }
    wide product = (wide)times_of[which][place] * digits;
    int shift = shift_of[which][place];
    uint64_t n = product >> shift, rest = product << (128 - shift) >> 64;
    if (__builtin_expect(((uint64_t)1 << 63) - rest <= (uint64_t)1 << 45, 0)) {
        int side = beside_half(digits, place - 32, n, &scales[which]);
        n += side > 0 || (side == 0 && (n & 1));
    } else n += rest >> 63;
    return negative ? -(int64_t)n : (int64_t)n;
}

static inline int64_t in_width(int64_t n, int width) {
    rejected |= (n + ((int64_t)1 << (width - 1))) >> width != 0;
    return n;
}
static inline int64_t in_bits(int64_t n, int width) {
    rejected |= n >> width != 0;
    return n;
}
