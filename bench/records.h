/* What the plain programs of this folder share: output by blocks, bits of messages, CRC-24Q by sliced tables, number texts
 * in exact arithmetic of 128 bits, the records of a RINEX 4.01 navigation file, messages, lines of a capture, and the parity
 * of LNAV words (docs/FORMATS.md has the layouts).
 */
#include <errno.h>
#include <stdint.h>
#include <stdio.h>
#include <stdlib.h>
#include <string.h>
#include <tmmintrin.h>
#include <unistd.h>

typedef unsigned __int128 wide;

/* ---- output ---- */

static char out_bytes[1 << 16];
static size_t out_held;

static void out_flush(void) {
    for (size_t done = 0; done < out_held;) {
        ssize_t some = write(1, out_bytes + done, out_held - done);
        if (some <= 0) exit(4);
        done += some;
    }
    out_held = 0;
}

/* room for so many bytes more; what is written there is told by out_held */
static char *out_room(size_t bytes) {
    if (out_held + bytes > sizeof out_bytes) out_flush();
    return out_bytes + out_held;
}

static inline void out_put(const void *bytes, size_t count) {
    memcpy(out_room(count), bytes, count);
    out_held += count;
}

/* ---- bits ---- */

/* width 1 to 32; eight bytes from the byte of the first bit on can be read */
static inline uint64_t get(const uint8_t *bytes, unsigned at, unsigned width) {
    uint64_t eight;
    memcpy(&eight, bytes + at / 8, 8);
    return __builtin_bswap64(eight) << at % 8 >> (64 - width);
}

static inline int64_t get_signed(const uint8_t *bytes, unsigned at, unsigned width) {
    return (int64_t)(get(bytes, at, width) << (64 - width)) >> (64 - width);
}

static inline void put(uint8_t *bytes, unsigned at, unsigned width, uint64_t value) {
    for (unsigned i = 0; i < width; i++) {
        unsigned place = at + i, bit = value >> (width - 1 - i) & 1;
        bytes[place / 8] = (bytes[place / 8] & ~(0x80 >> place % 8)) | bit << (7 - place % 8);
    }
}

/* ---- CRC-24Q, eight bytes at a time; the register is kept as its three bytes stand in memory ---- */

static uint32_t crc_table[8][256];

static void fill_crc(void) {
    for (uint32_t byte = 0; byte < 256; byte++) {
        uint32_t crc = byte << 16;
        for (int bit = 0; bit < 8; bit++) crc = crc << 1 ^ (crc & 0x800000 ? 0x1864CFB : 0);
        crc_table[0][byte] = __builtin_bswap32(crc << 8);
    }
    for (int slice = 1; slice < 8; slice++)
        for (uint32_t byte = 0; byte < 256; byte++) {
            uint32_t crc = crc_table[slice - 1][byte];
            crc_table[slice][byte] = crc >> 8 ^ crc_table[0][crc & 255];
        }
}

/* the register behind eight bytes, of which the first is the lowest byte */
static inline uint32_t crc_eight(uint32_t crc, uint64_t eight) {
    eight ^= crc;
    return crc_table[7][eight & 255] ^ crc_table[6][eight >> 8 & 255] ^ crc_table[5][eight >> 16 & 255] ^
           crc_table[4][eight >> 24 & 255] ^ crc_table[3][eight >> 32 & 255] ^ crc_table[2][eight >> 40 & 255] ^
           crc_table[1][eight >> 48 & 255] ^ crc_table[0][eight >> 56];
}

static inline uint32_t crc_of(const uint8_t *bytes, size_t count) {
    uint32_t crc = 0;
    for (; count >= 8; bytes += 8, count -= 8) {
        uint64_t eight;
        memcpy(&eight, bytes, 8);
        crc = crc_eight(crc, eight);
    }
    for (; count > 0; bytes++, count--) crc = crc >> 8 ^ crc_table[0][(crc ^ *bytes) & 255];
    return __builtin_bswap32(crc) >> 8;
}

/* the frame around a payload that stands at into + 3; gives its size */
static inline size_t close_frame(uint8_t *into, size_t payload) {
    into[0] = 0xD3;
    into[1] = payload >> 8;
    into[2] = payload;
    uint32_t crc = crc_of(into, payload + 3);
    into[3 + payload] = crc >> 16;
    into[4 + payload] = crc >> 8;
    into[5 + payload] = crc;
    return payload + 6;
}

/* ---- number texts ---- */

/* factor x 2^two x 10^ten, times 31415926535898 / 10^13 where pi; and what is kept of it for each power of ten */
struct scale {
    int pi;
    uint32_t factor;
    int two, ten;
    int8_t first[65];        /* by the number of bits of n: the place of the least such n */
    uint64_t least[32];      /* by place: the least n of that place */
    uint64_t high[32];       /* by place: n x (high + low / 2^64) is the 13 digits, or less than n / 2^64 above them */
    uint64_t low[32];
};

enum {
    WHOLE, CENTI, STEP16, STEP60, P5, P19, P29, P30, P31, P32, P33, P34, P27, P24, P43, P46, P55, P59, M11, M14, M16,
    P2, P8, P15, PI31, PI43, SCALES
};

static struct scale scales[SCALES] = {
    [WHOLE] = {0, 1, 0, 0}, [CENTI] = {0, 1, 0, -2}, [STEP16] = {0, 16, 0, 0}, [STEP60] = {0, 60, 0, 0},
    [P5] = {0, 1, -5, 0}, [P19] = {0, 1, -19, 0}, [P29] = {0, 1, -29, 0}, [P30] = {0, 1, -30, 0},
    [P31] = {0, 1, -31, 0}, [P32] = {0, 1, -32, 0}, [P33] = {0, 1, -33, 0}, [P34] = {0, 1, -34, 0},
    [P27] = {0, 1, -27, 0}, [P24] = {0, 1, -24, 0}, [P43] = {0, 1, -43, 0}, [P46] = {0, 1, -46, 0},
    [P55] = {0, 1, -55, 0}, [P59] = {0, 1, -59, 0}, [M11] = {0, 1, 11, 0}, [M14] = {0, 1, 14, 0},
    [M16] = {0, 1, 16, 0}, [P2] = {0, 1, -2, 0}, [P8] = {0, 1, -8, 0}, [P15] = {0, 1, -15, 0},
    [PI31] = {1, 1, -31, 0}, [PI43] = {1, 1, -43, 0},
};

/* the scale times 10^20, as over / under */
static void size_of(const struct scale *s, wide *over, wide *under) {
    wide whole = (wide)s->factor * (s->pi ? 3141592653589800000u : 1000000000000000000u);
    whole *= s->ten == 0 ? 100 : s->ten == -1 ? 10 : 1;
    *over = s->two < 0 ? whole : whole << s->two;
    *under = s->two < 0 ? (wide)1 << -s->two : 1;
}

static wide nearest(wide over, wide under) {
    wide whole = over / under, rest = over - whole * under, gap = under - rest;
    return rest < gap || (rest == gap && whole % 2 == 0) ? whole : whole + 1;
}

/* the exponent of n at a scale, plus 20 */
static int place_of(const struct scale *s, uint64_t n) {
    wide over, under;
    size_of(s, &over, &under);
    over *= n;
    int place = 0;
    for (wide power = under; power <= over / 10; power *= 10) place++;
    return place;
}

static void fill_scale(struct scale *s) {
    for (int bits = 1; bits <= 33; bits++) s->first[bits] = place_of(s, (uint64_t)1 << (bits - 1));
    for (int place = 0; place < 32; place++) {
        uint64_t low = 1, high = (uint64_t)1 << 34;
        while (low < high) {
            uint64_t middle = (low + high) / 2;
            if (place_of(s, middle) >= place) high = middle;
            else low = middle + 1;
        }
        s->least[place] = low;
        int tens = 12 - (place - 20) + s->ten - (s->pi ? 13 : 0), shift = 64 + s->two + tens;
        wide times = (wide)s->factor * (s->pi ? 31415926535898u : 1);
        for (int i = 0; i < tens && i < 30; i++) times *= 5;
        times = shift >= 0 ? times << shift : times >> -shift;
        for (int i = tens; i < 0; i++) times /= 5;
        s->high[place] = times >> 64;
        s->low[place] = times;
    }
}

static void fill_scales(void) {
    for (int i = 0; i < SCALES; i++) fill_scale(&scales[i]);
}

static char two_digits[200];
static uint32_t exponents[32]; /* by place: the four bytes of an exponent */

static void fill_digits(void) {
    for (int i = 0; i < 100; i++) { two_digits[2 * i] = '0' + i / 10; two_digits[2 * i + 1] = '0' + i % 10; }
    for (int i = 0; i < 32; i++) {
        int size = i < 20 ? 20 - i : i - 20;
        char text[4] = {'D', i < 20 ? '-' : '+', '0' + size / 10, '0' + size % 10};
        memcpy(&exponents[i], text, 4);
    }
}

static inline void put_two(char *into, unsigned number) { memcpy(into, two_digits + 2 * number, 2); }

/* eight digits, all at once: pairs of four, of two, of one */
static inline void put_eight(char *into, uint32_t number) {
    uint64_t fours = number / 10000 | (uint64_t)(number % 10000) << 32;
    uint64_t hundreds = (fours * 10486 >> 20) & 0x0000007F0000007F;
    uint64_t twos = hundreds | (fours - 100 * hundreds) << 16;
    uint64_t tens = (twos * 103 >> 10) & 0x000F000F000F000F;
    uint64_t ones = (tens | (twos - 10 * tens) << 8) | 0x3030303030303030;
    memcpy(into, &ones, 8);
}

/* the 13 digits of n at a scale, and the place of its exponent, in exact arithmetic */
static uint64_t thirteen_plain(uint64_t n, const struct scale *s, int *at) {
    wide over, under;
    size_of(s, &over, &under);
    over *= n;
    int place = 0;
    for (wide power = under; power * 10 <= over; power *= 10) place++;
    for (int i = place; i < 12; i++) over *= 10;
    for (int i = 12; i < place; i++) under *= 10;
    *at = place;
    return nearest(over, under);
}

/* the same by one product, where what it leaves out cannot matter */
static inline uint64_t thirteen_kept(uint64_t n, const struct scale *s, int *at) {
    int place = s->first[64 - __builtin_clzll(n)];
    place += n >= s->least[place + 1];
    *at = place;
    wide low = (wide)s->low[place] * n;
    uint64_t whole = s->high[place] * n + (uint64_t)(low >> 64), rest = low;
    if (__builtin_expect(((uint64_t)1 << 63) - rest <= n, 0)) return thirteen_plain(n, s, at);
    return whole + (rest >> 63);
}

static inline char *put_number(char *into, int64_t number, int which) {
    if (number == 0) {
        memcpy(into, " 0.000000000000D+00", 19);
        return into + 19;
    }
    int place;
    uint64_t size = number < 0 ? -number : number;
    uint64_t digits = thirteen_kept(size, &scales[which], &place);
    if (__builtin_expect(digits == 10000000000000u, 0)) { digits = 1000000000000u; place++; }
    uint32_t high = digits / 100000000, low = digits % 100000000, first = high / 10000;
    into[0] = number < 0 ? '-' : ' ';
    into[1] = '0' + first;
    into[2] = '.';
    high -= first * 10000;
    put_two(into + 3, high / 100);
    put_two(into + 5, high % 100);
    put_eight(into + 7, low);
    memcpy(into + 15, &exponents[place], 4);
    return into + 19;
}

/* ---- items ---- */

#define UNKNOWN 999900000

/* an ephemeris as whole numbers; iodnav stands in iode, sisa in ura, bgd_a and bgd_b in tgd and bgd */
struct eph {
    int gal, sat, toe_week;
    int64_t sent;
    int64_t iode, iodc, toc, toe, af0, af1, af2, tgd, bgd, l2_code, ura, health, l2p, fit;
    int64_t crs, crc, cuc, cus, cic, cis, m0, omega0, i0, omega, delta_n, omega_dot, idot, e, root_a;
};

static const int ura_centimetres[16] = {200, 280, 400, 570, 800, 1130, 1600, 3200, 6400, 12800, 25600, 51200, 102400,
                                        204800, 409600, 819200};

static int sisa_centimetres(int index) {
    if (index == 255) return -100;
    if (index < 50) return index;
    if (index < 75) return 50 + 2 * (index - 50);
    return index < 100 ? 100 + 4 * (index - 75) : 200 + 16 * (index - 100);
}

/* year, month, day of a day counted from 1980-01-06 */
static inline char *put_date(char *into, int64_t moment) {
    int64_t days = moment / 86400 + 3657 + 719468, second = moment % 86400;
    int64_t era = days / 146097, day = days % 146097;
    int64_t year = (day - day / 1460 + day / 36524 - day / 146096) / 365;
    int64_t yearday = day - (365 * year + year / 4 - year / 100), month = (5 * yearday + 2) / 153;
    day = yearday - (153 * month + 2) / 5 + 1;
    month = month < 10 ? month + 3 : month - 9;
    year += era * 400 + (month <= 2);
    memcpy(into, "0000 00 00 00 00 00", 19);
    put_two(into, year / 100);
    put_two(into + 2, year % 100);
    put_two(into + 5, month);
    put_two(into + 8, day);
    put_two(into + 11, second / 3600);
    put_two(into + 14, second / 60 % 60);
    put_two(into + 17, second % 60);
    return into + 19;
}

static inline char *put_text(char *into, const char *text) {
    size_t size = strlen(text);
    memcpy(into, text, size);
    return into + size;
}

static inline char *put_sat(char *into, int gal, int sat) {
    *into = gal ? 'E' : 'G';
    put_two(into + 1, sat);
    return into + 3;
}

/* up to four numbers behind four blanks, and the line's end */
static inline char *put_line(char *into, int count, const int64_t *numbers, const int *which) {
    into = put_text(into, "    ");
    for (int i = 0; i < count; i++) into = put_number(into, numbers[i], which[i]);
    *into++ = '\n';
    return into;
}

#define LINE(...) put_line(into, sizeof(int64_t[]){__VA_ARGS__} / 8, (int64_t[]){__VA_ARGS__}
#define AT(...) (int[]){__VA_ARGS__})

/* the record of an ephemeris, at most 704 bytes */
static inline char *put_record(char *into, const struct eph *i) {
    int64_t toe = i->toe * (i->gal ? 60 : 16), toc = i->toc * (i->gal ? 60 : 16);
    int64_t ahead = (toc - toe + 604800) % 604800;
    int64_t epoch = 604800 * (int64_t)i->toe_week + toe + (ahead <= 302400 ? ahead : ahead - 604800);
    into = put_sat(put_text(into, "> EPH "), i->gal, i->sat);
    into = put_sat(put_text(into, i->gal ? " INAV\n" : " LNAV\n"), i->gal, i->sat);
    *into++ = ' ';
    into = put_date(into, epoch);
    into = put_number(into, i->af0, i->gal ? P34 : P31);
    into = put_number(into, i->af1, i->gal ? P46 : P43);
    into = put_number(into, i->af2, i->gal ? P59 : P55);
    *into++ = '\n';
    into = LINE(i->iode, i->crs, i->delta_n, i->m0), AT(WHOLE, P5, PI43, PI31);
    into = LINE(i->cuc, i->e, i->cus, i->root_a), AT(P29, P33, P29, P19);
    into = LINE(i->toe, i->cic, i->omega0, i->cis), AT(i->gal ? STEP60 : STEP16, P29, PI31, P29);
    into = LINE(i->i0, i->crc, i->omega, i->omega_dot), AT(PI31, P5, PI31, PI43);
    if (i->gal) {
        into = LINE(i->idot, 517, i->toe_week), AT(PI43, WHOLE, WHOLE);
        into = LINE(sisa_centimetres(i->ura), i->health, i->tgd, i->bgd), AT(CENTI, WHOLE, P32, P32);
        return LINE(i->sent), AT(WHOLE);
    }
    into = LINE(i->idot, i->l2_code, i->toe_week, i->l2p), AT(PI43, WHOLE, WHOLE, WHOLE);
    into = LINE(ura_centimetres[i->ura], i->health, i->tgd, i->iodc), AT(CENTI, WHOLE, P31, WHOLE);
    return LINE(i->sent, i->fit ? 6 : 4), AT(WHOLE, WHOLE);
}

static inline void out_header(const char *version, const char *date, int leap) {
    char *text = out_room(400);
    out_held += sprintf(text,
                        "     %s           N: GNSS NAV DATA    M: MIXED            RINEX VERSION / TYPE\n"
                        "navbridge                               %s PGM / RUN BY / DATE\n"
                        "%6d%54sLEAP SECONDS\n%60sEND OF HEADER\n",
                        version, date, leap, "", "");
}

/* ---- messages 1019 and 1046 ---- */

/* fields behind one another, from the highest bit of the first word on */
struct bits { uint64_t words[9]; unsigned at; };
static inline void add(struct bits *b, unsigned width, uint64_t value) {
    unsigned word = b->at >> 6, from = b->at & 63;
    value &= ((uint64_t)1 << width) - 1;
    if (from + width <= 64) b->words[word] |= value << (64 - width - from);
    else {
        b->words[word] |= value >> (from + width - 64);
        b->words[word + 1] |= value << (128 - width - from);
    }
    b->at += width;
}

/* a frame with the message of an ephemeris */
static inline void put_eph_frame(const struct eph *i) {
    char *into = out_room(80);
    struct bits b = {0};
    add(&b, 12, i->gal ? 1046 : 1019); add(&b, 6, i->sat);
    if (!i->gal) {
        add(&b, 10, i->toe_week); add(&b, 4, i->ura); add(&b, 2, i->l2_code); add(&b, 14, i->idot); add(&b, 8, i->iode);
        add(&b, 16, i->toc); add(&b, 8, i->af2); add(&b, 16, i->af1); add(&b, 22, i->af0); add(&b, 10, i->iodc);
        add(&b, 16, i->crs); add(&b, 16, i->delta_n); add(&b, 32, i->m0); add(&b, 16, i->cuc); add(&b, 32, i->e);
        add(&b, 16, i->cus); add(&b, 32, i->root_a); add(&b, 16, i->toe); add(&b, 16, i->cic); add(&b, 32, i->omega0);
        add(&b, 16, i->cis); add(&b, 32, i->i0); add(&b, 16, i->crc); add(&b, 32, i->omega); add(&b, 24, i->omega_dot);
        add(&b, 8, i->tgd); add(&b, 6, i->health); add(&b, 1, i->l2p); add(&b, 1, i->fit);
    } else {
        add(&b, 12, i->toe_week - 1024); add(&b, 10, i->iode); add(&b, 8, i->ura); add(&b, 14, i->idot); add(&b, 14, i->toc);
        add(&b, 6, i->af2); add(&b, 21, i->af1); add(&b, 31, i->af0);
        add(&b, 16, i->crs); add(&b, 16, i->delta_n); add(&b, 32, i->m0); add(&b, 16, i->cuc); add(&b, 32, i->e);
        add(&b, 16, i->cus); add(&b, 32, i->root_a); add(&b, 14, i->toe); add(&b, 16, i->cic); add(&b, 32, i->omega0);
        add(&b, 16, i->cis); add(&b, 32, i->i0); add(&b, 16, i->crc); add(&b, 32, i->omega); add(&b, 24, i->omega_dot);
        add(&b, 10, i->tgd); add(&b, 10, i->bgd); add(&b, 2, i->health >> 7); add(&b, 1, i->health >> 6);
        add(&b, 2, i->health >> 1); add(&b, 1, i->health);
    }
    for (int k = 0; k < 8; k++) {
        uint64_t word = __builtin_bswap64(b.words[k]);
        memcpy(into + 3 + 8 * k, &word, 8);
    }
    out_held += close_frame((uint8_t *)into, i->gal ? 63 : 61);
}

/* ---- lines of a capture ---- */

static inline char *put_decimal(char *into, uint64_t number) {
    char digits[32], *at = digits + 20;
    for (; number >= 100; number /= 100) { at -= 2; put_two(at, number % 100); }
    if (number >= 10) { at -= 2; put_two(at, number); }
    else *--at = '0' + number;
    size_t size = digits + 20 - at;
    if (size <= 8) { memcpy(into, at, 8); return into + size; }
    memcpy(into, at, size);
    return into + size;
}

/* bytes as digits, 16 at a time: up to 15 more are read, and twice as many bytes written */
static inline void put_hex(char *into, const uint8_t *bytes, int count) {
    const __m128i digits = _mm_setr_epi8('0', '1', '2', '3', '4', '5', '6', '7', '8', '9', 'a', 'b', 'c', 'd', 'e', 'f');
    for (int i = 0; i < count; i += 16) {
        __m128i x = _mm_loadu_si128((const __m128i *)(bytes + i)), low = _mm_and_si128(x, _mm_set1_epi8(15));
        __m128i high = _mm_and_si128(_mm_srli_epi16(x, 4), _mm_set1_epi8(15));
        low = _mm_shuffle_epi8(digits, low);
        high = _mm_shuffle_epi8(digits, high);
        _mm_storeu_si128((__m128i *)(into + 2 * i), _mm_unpacklo_epi8(high, low));
        _mm_storeu_si128((__m128i *)(into + 2 * i + 16), _mm_unpackhi_epi8(high, low));
    }
}

/* a line up to its digits, or its signal */
static inline char *put_begin(char *into, uint32_t stamp, char kind, char system, int sat) {
    into = put_decimal(into, stamp);
    into[0] = ' '; into[1] = kind; into[2] = ' '; into[3] = system;
    put_two(into + 4, sat);
    into[6] = ' ';
    return into + 7;
}

/* ---- parity of LNAV words (IS-GPS-200, table 20-XIV) ---- */

static const char *parity[6] = {
    "1 2 3 5 6 10 11 12 13 14 17 18 20 23", "2 3 4 6 7 11 12 13 14 15 18 19 21 24",
    "1 3 4 5 7 8 12 13 14 15 16 19 20 22", "2 4 5 6 8 9 13 14 15 16 17 20 21 23",
    "1 3 5 6 7 9 10 14 15 16 17 18 21 22 24", "3 5 6 8 9 10 11 13 15 19 22 23 24"};
static const int uses_30[6] = {0, 1, 0, 1, 1, 0};
static uint8_t parity_of[3][256], parity_last[4];

static inline void fill_parity(void) {
    for (int row = 0; row < 6; row++) {
        char *at = (char *)parity[row];
        uint32_t mask = 0;
        while (*at) mask |= 1u << (24 - strtol(at, &at, 10));
        for (uint32_t byte = 0; byte < 256; byte++)
            for (int part = 0; part < 3; part++)
                parity_of[part][byte] |= __builtin_parity(byte << 8 * part & mask) << (5 - row);
        for (int last = 0; last < 4; last++) parity_last[last] |= (uses_30[row] ? last & 1 : last >> 1) << (5 - row);
    }
}

static inline unsigned tail_of(uint32_t source, unsigned last) {
    return parity_of[0][source & 255] ^ parity_of[1][source >> 8 & 255] ^ parity_of[2][source >> 16] ^ parity_last[last];
}

static void fill_tables(void) {
    fill_crc();
    fill_scales();
    fill_digits();
}

/* ---- draws of the generator: 64 bits, of which the upper ones are given ---- */

static uint64_t draw_state;

static inline uint64_t draw(int bits) {
    draw_state = 6364136223846793005u * draw_state + 1442695040888963407u;
    return draw_state >> (64 - bits);
}
