/* The plain program that bench/jobs.sh compares with on raw streams, and the maker of its streams.
 *
 *   streams make distinct BYTES          frames of messages 1019 and 1046 by turns, no two alike
 *   streams make repeated BYTES [COUNT]  COUNT such frames (64 where none is said), again and again
 *   streams frames                       stream to frames
 *   streams rinex WEEK DATE LEAP         stream to rinex; `rinex3` the same without the titles
 *   streams rtcm WEEK                    stream to rtcm
 *
 * Standard input is read; output and report are those of navbridge, byte for byte.
 */
#include "records.h"

/* ---- makers ---- */

static size_t make_1019(uint8_t *frame) {
    uint8_t *p = frame + 3;
    memset(p, 0, 61);
    unsigned at = 0;
#define PUT(width, value) (put(p, at, width, value), at += width)
#define DRAW(width) PUT(width, draw(width))
    uint64_t iodc = draw(10);
    PUT(12, 1019); PUT(6, 1 + draw(5)); PUT(10, (2295 - 100 + draw(7)) % 1024); DRAW(4); DRAW(2); DRAW(14);
    PUT(8, iodc & 255); PUT(16, draw(20) % 37800); DRAW(8); DRAW(16); DRAW(22); PUT(10, iodc);
    DRAW(16); DRAW(16); DRAW(32); DRAW(16); DRAW(32); DRAW(16); DRAW(32); PUT(16, draw(20) % 37800);
    DRAW(16); DRAW(32); DRAW(16); DRAW(32); DRAW(16); DRAW(32); DRAW(24); DRAW(8); DRAW(6); DRAW(1); DRAW(1);
    return close_frame(frame, 61);
}

static size_t make_1046(uint8_t *frame) {
    uint8_t *p = frame + 3;
    memset(p, 0, 63);
    unsigned at = 0;
    PUT(12, 1046); PUT(6, 1 + draw(16) % 36); PUT(12, (2295 - 100 + draw(7) + 3072) % 4096); DRAW(10);
    PUT(8, draw(16) % 126); DRAW(14); PUT(14, draw(20) % 10080); DRAW(6); DRAW(21); DRAW(31);
    DRAW(16); DRAW(16); DRAW(32); DRAW(16); DRAW(32); DRAW(16); DRAW(32); PUT(14, draw(20) % 10080);
    DRAW(16); DRAW(32); DRAW(16); DRAW(32); DRAW(16); DRAW(32); DRAW(24); DRAW(10); DRAW(10); DRAW(2); DRAW(1);
    DRAW(2); DRAW(1);
    return close_frame(frame, 63);
}

static void make_distinct(size_t bytes) {
    uint8_t frame[80];
    size_t made = 0;
    for (int turn = 0; made + 69 <= bytes; turn ^= 1) {
        size_t size = turn ? make_1046(frame) : make_1019(frame);
        out_put(frame, size);
        made += size;
    }
}

static void make_repeated(size_t bytes, size_t count) {
    uint8_t (*frames)[80] = malloc(count * sizeof *frames);
    size_t *sizes = malloc(count * sizeof *sizes);
    if (!frames || !sizes) exit(6);
    for (size_t i = 0; i < count; i++) sizes[i] = i % 2 ? make_1046(frames[i]) : make_1019(frames[i]);
    for (size_t made = 0, i = 0; made + 69 <= bytes; i = (i + 1) % count) {
        out_put(frames[i], sizes[i]);
        made += sizes[i];
    }
}

/* ---- frames ---- */

#define ROOM (1 << 18)

static uint8_t in_bytes[ROOM + 16];

typedef void taker(const uint8_t *payload, size_t count);

/* Gives each frame of standard input: where a whole frame of right checksum begins, that frame, going on behind it;
 * else going on behind one byte. */
static void each_frame(taker *take) {
    size_t held = 0, at = 0;
    for (int ended = 0;;) {
        while (at < held) {
            const uint8_t *p = in_bytes + at;
            if (*p != 0xD3) {
                const uint8_t *next = memchr(p, 0xD3, held - at);
                at = next ? (size_t)(next - in_bytes) : held;
                continue;
            }
            size_t payload = at + 3 <= held ? (p[1] & 3) << 8 | p[2] : 0, size = payload + 6;
            if (at + 3 > held || at + size > held) {
                if (!ended) break;
                at++;
                continue;
            }
            if (crc_of(p, payload + 3) == get(p, 8 * (payload + 3), 24)) {
                take(p + 3, payload);
                at += size;
            } else at++;
        }
        if (ended) return;
        memmove(in_bytes, in_bytes + at, held - at);
        held -= at;
        at = 0;
        ssize_t some = read(0, in_bytes + held, ROOM - held);
        if (some < 0) exit(3);
        if (some == 0) ended = 1;
        held += some;
    }
}

static uint32_t small_text[4096]; /* the digits of a number, the first in the lowest byte */
static uint8_t small_size[4096];

static void fill_small(void) {
    for (unsigned i = 0; i < 4096; i++) {
        char text[8] = {0};
        small_size[i] = sprintf(text, "%u", i);
        memcpy(&small_text[i], text, 4);
    }
}

static inline char *put_small(char *into, unsigned number) {
    memcpy(into, &small_text[number], 4);
    return into + small_size[number];
}

static void take_frame(const uint8_t *payload, size_t count) {
    char *into = out_room(16);
    if (count < 2) *into++ = '-';
    else into = put_small(into, payload[0] << 4 | payload[1] >> 4);
    *into++ = ' ';
    into = put_small(into, count);
    *into++ = '\n';
    out_held = into - out_bytes;
}

/* ---- items ---- */

static int reference;
static unsigned long long frames, refused, unused, items;

static int gps_week(unsigned number) {
    int low = reference - 512;
    return low + (int)((number - (unsigned)low) & 1023);
}

static int gal_week(unsigned number) {
    int low = reference - 2048 < 1024 ? 1024 : reference - 2048;
    return low + (int)((number + 1024 - (unsigned)low) & 4095);
}

/* the item of a payload; the reason where there is none, and "" where it is not used */
static const char *read_item(const uint8_t *p, size_t count, struct eph *i) {
    if (count < 2) return "";
    unsigned number = get(p, 0, 12), at = 12;
    if (number != 1019 && number != 1046) return "";
    i->gal = number == 1046;
    if (count < (i->gal ? 63 : 61)) return "short";
#define GET(width) (at += width, get(p, at - width, width))
#define SIGNED(width) (at += width, get_signed(p, at - width, width))
    i->sat = GET(6);
    i->sent = UNKNOWN;
    if (!i->gal) {
        i->toe_week = gps_week(GET(10));
        i->ura = GET(4); i->l2_code = GET(2); i->idot = SIGNED(14); i->iode = GET(8); i->toc = GET(16);
        i->af2 = SIGNED(8); i->af1 = SIGNED(16); i->af0 = SIGNED(22); i->iodc = GET(10);
    } else {
        i->toe_week = gal_week(GET(12));
        i->iode = GET(10); i->ura = GET(8); i->idot = SIGNED(14); i->toc = GET(14);
        i->af2 = SIGNED(6); i->af1 = SIGNED(21); i->af0 = SIGNED(31);
    }
    i->crs = SIGNED(16); i->delta_n = SIGNED(16); i->m0 = SIGNED(32); i->cuc = SIGNED(16); i->e = GET(32);
    i->cus = SIGNED(16); i->root_a = GET(32); i->toe = i->gal ? GET(14) : GET(16); i->cic = SIGNED(16);
    i->omega0 = SIGNED(32); i->cis = SIGNED(16); i->i0 = SIGNED(32); i->crc = SIGNED(16); i->omega = SIGNED(32);
    i->omega_dot = SIGNED(24);
    if (!i->gal) {
        i->tgd = SIGNED(8); i->health = GET(6); i->l2p = GET(1); i->fit = GET(1);
        if (i->sat < 1 || i->sat > 32) return "satellite";
        return i->toe >= 37800 || i->toc >= 37800 ? "time" : NULL;
    }
    i->tgd = SIGNED(10); i->bgd = SIGNED(10);
    unsigned hs_e5b = GET(2), dvs_e5b = GET(1), hs_e1b = GET(2), dvs_e1b = GET(1);
    i->health = dvs_e1b | hs_e1b << 1 | dvs_e5b << 6 | hs_e5b << 7;
    if (i->sat < 1 || i->sat > 36) return "satellite";
    if (i->toe >= 10080 || i->toc >= 10080) return "time";
    return i->ura >= 126 && i->ura <= 254 ? "sisa" : NULL;
}

/* ---- the items that came, by the bits that they stand for ---- */

struct seen { uint64_t words[8]; };

static struct seen *table;
static size_t table_size, table_held;

static uint64_t mix(const struct seen *s) {
    uint64_t sum = 0x9E3779B97F4A7C15u;
    for (int i = 0; i < 8; i += 2) {
        wide both = (wide)(s->words[i] ^ sum) * (s->words[i + 1] ^ 0xD6E8FEB86659FD93u);
        sum = (uint64_t)both ^ (uint64_t)(both >> 64);
    }
    return sum;
}

static struct seen *place_for(const struct seen *s) {
    size_t at = mix(s) & (table_size - 1);
    for (;; at = (at + 1) & (table_size - 1)) {
        const uint64_t *t = table[at].words, *w = s->words;
        if (!t[7]) break;
        if (!((t[0] ^ w[0]) | (t[1] ^ w[1]) | (t[2] ^ w[2]) | (t[3] ^ w[3]) | (t[4] ^ w[4]) | (t[5] ^ w[5]) |
              (t[6] ^ w[6]) | (t[7] ^ w[7]))) break;
    }
    return &table[at];
}

static void grow(void) {
    struct seen *old = table;
    size_t size = table_size;
    table_size = size ? 2 * size : 4096;
    table = calloc(table_size, sizeof *table);
    if (!table) exit(6);
    for (size_t i = 0; i < size; i++) if (old[i].words[7]) *place_for(&old[i]) = old[i];
    free(old);
}

/* the place of the item of these bits, and the bits; the last byte tells that a place is taken */
static struct seen *look(const uint8_t *payload, int gal, struct seen *s) {
    if (2 * table_held >= table_size) grow();
    memcpy(s, payload, 56);
    uint64_t last = 0;
    if (gal) memcpy(&last, payload + 56, 7);
    else memcpy(&last, payload + 56, 5);
    if (gal) last &= ~((uint64_t)3 << 48);
    s->words[7] = last | (uint64_t)1 << 56;
    return place_for(s);
}

static int to_rtcm, titles = 1;

static void put_item(const uint8_t *payload, const struct eph *i) {
    char *into = out_room(704);
    if (!to_rtcm) {
        char *end = put_record(into, i);
        size_t size = end - into, title = titles ? 0 : 15;
        if (title) memmove(into, into + title, size - title);
        out_held += size - title;
        return;
    }
    size_t size = i->gal ? 63 : 61;
    memcpy(into + 3, payload, size);
    if (i->gal) into[3 + 62] &= 0xFC;
    out_held += close_frame((uint8_t *)into, size);
}

/* what came before is only looked up; every item that stands in the table is one that was read */
static void take_item(const uint8_t *payload, size_t count) {
    struct eph i = {0};
    struct seen s, *place = NULL;
    frames++;
    if (count >= 61) {
        unsigned number = get(payload, 0, 12);
        int gal = number == 1046;
        if ((number == 1019 || gal) && count >= (gal ? 63 : 61)) {
            place = look(payload, gal, &s);
            if (place->words[7]) return;
        }
    }
    const char *reason = read_item(payload, count, &i);
    if (reason && *reason) {
        refused++;
        fprintf(stderr, "frame %llu %s\n", frames, reason);
    } else if (reason) unused++;
    else {
        *place = s;
        table_held++;
        items++;
        put_item(payload, &i);
    }
}

static int run_items(char **words) {
    to_rtcm = !strcmp(words[1], "rtcm");
    titles = !strcmp(words[1], "rinex");
    reference = atoi(words[2]);
    if (!to_rtcm) out_header(titles ? "4.01" : "3.05", words[3], atoi(words[4]));
    each_frame(take_item);
    out_flush();
    fprintf(stderr, "frames %llu\nrefused %llu\nunused %llu\nitems %llu\n", frames, refused, unused, items);
    return 0;
}

int main(int count, char **words) {
    fill_tables();
    fill_small();
    draw_state = 7;
    if (count > 3 && !strcmp(words[1], "make")) {
        size_t bytes = strtoull(words[3], 0, 10);
        if (!strcmp(words[2], "distinct")) make_distinct(bytes);
        else make_repeated(bytes, count > 4 ? strtoull(words[4], 0, 10) : 64);
    } else if (count == 2 && !strcmp(words[1], "frames")) each_frame(take_frame);
    else if (count == 5 && (!strcmp(words[1], "rinex") || !strcmp(words[1], "rinex3"))) return run_items(words);
    else if (count == 3 && !strcmp(words[1], "rtcm")) return run_items(words);
    else return 2;
    out_flush();
    return 0;
}
