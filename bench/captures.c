/* The maker of the captures of bench/jobs.sh, and of what must come of them.
 *
 *   captures make SEED SATS WEEK               the capture that `--from seed --to capture` gives
 *   captures rinex SEED SATS WEEK DATE LEAP    its RINEX file
 *   captures hours SEED SATS WEEK HOURS WINDOW a capture of so many hours whose first line names week and window: each
 *                                              hour has a seed of its own, and no lines are repeated at the end
 *   captures partial COUNT                     third subframes of one issue, each a window and a second after the last
 *   captures list COUNT                        its list
 *
 * An hour has SATS satellites of GPS and as many of Galileo, on two signals. The layouts are those of docs/FORMATS.md.
 */
#include "records.h"

enum { MOST = 33 };

static int64_t draw_signed(int bits) { return (int64_t)(draw(bits) << (64 - bits)) >> (64 - bits); }

struct ion { int64_t alpha[4], beta[4], ai0, ai1, ai2, regions; };

static struct eph gps[MOST], gal[MOST];
static struct ion ion;
static int sats, week;

static void draw_orbit(struct eph *i) {
    i->crs = draw_signed(16); i->delta_n = draw_signed(16); i->m0 = draw_signed(32); i->cuc = draw_signed(16);
    i->e = draw(32); i->cus = draw_signed(16); i->root_a = draw(32); i->cic = draw_signed(16);
    i->omega0 = draw_signed(32); i->cis = draw_signed(16); i->i0 = draw_signed(32); i->crc = draw_signed(16);
    i->omega = draw_signed(32); i->omega_dot = draw_signed(24);
}

static void draw_hour(uint64_t seed) {
    draw_state = seed;
    for (int n = 1; n <= sats; n++) {
        struct eph *i = &gps[n];
        *i = (struct eph){.sat = n, .toe_week = week, .toe = 450, .toc = 450};
        i->ura = draw(4); i->l2_code = draw(2); i->idot = draw_signed(14); i->af2 = draw_signed(8);
        i->af1 = draw_signed(16); i->af0 = draw_signed(22); i->iodc = draw(10); i->iode = i->iodc & 255;
        draw_orbit(i);
        i->tgd = draw_signed(8); i->l2p = draw(1); i->fit = draw(1);
    }
    for (int n = 1; n <= sats; n++) {
        struct eph *i = &gal[n];
        *i = (struct eph){.gal = 1, .sat = n, .toe_week = week, .toe = 120, .toc = 120, .ura = 107};
        i->iode = draw(10); i->idot = draw_signed(14); i->af2 = draw_signed(6); i->af1 = draw_signed(21);
        i->af0 = draw_signed(31);
        draw_orbit(i);
        i->tgd = draw_signed(10); i->bgd = draw_signed(10);
    }
    for (int i = 0; i < 4; i++) ion.alpha[i] = draw_signed(8);
    for (int i = 0; i < 4; i++) ion.beta[i] = draw_signed(8);
    ion.ai0 = draw(11); ion.ai1 = draw_signed(11); ion.ai2 = draw_signed(14); ion.regions = draw(5);
}

/* ---- subframes: bits counted from 1, as the standard does ---- */

/* The sent words of 300 source bits, of which the places of parity are not looked at. */
static void send_words(const uint8_t *source, uint8_t *sent) {
    unsigned last = 0;
    uint32_t w[10];
    for (int word = 0; word < 10; word++) {
        uint32_t bits = get(source, 30 * word, 24);
        if (word == 1 || word == 9) {
            bits &= ~3u;
            unsigned tail = tail_of(bits, last);
            bits |= (tail >> 1 & 1) | ((tail ^ tail >> 1) & 1) << 1; /* d24 is in both of D29 and D30 */
        }
        unsigned tail = tail_of(bits, last);
        w[word] = (last & 1 ? bits ^ 0xFFFFFF : bits) << 6 | tail;
        last = tail & 3;
    }
    struct bits b = {0};
    for (int word = 0; word < 10; word++) add(&b, 30, w[word]);
    for (int k = 0; k < 5; k++) {
        uint64_t eight = __builtin_bswap64(b.words[k]);
        memcpy(sent + 8 * k, &eight, 8);
    }
}

/* a field at one place or two: the bits from `first` on, then those from `second` on */
static void field(uint8_t *bits, int first, int width, int second, int rest, int64_t value) {
    if (rest) put(bits, second - 1, rest, value);
    put(bits, first - 1, width, (uint64_t)value >> rest);
}

static void fill_subframe(uint8_t *b, const struct eph *i, int number, int page) {
    if (number == 1) {
        field(b, 61, 10, 0, 0, week % 1024); field(b, 71, 2, 0, 0, i->l2_code); field(b, 73, 4, 0, 0, i->ura);
        field(b, 77, 6, 0, 0, i->health); field(b, 83, 2, 211, 8, i->iodc); field(b, 91, 1, 0, 0, i->l2p);
        field(b, 197, 8, 0, 0, i->tgd); field(b, 219, 16, 0, 0, i->toc); field(b, 241, 8, 0, 0, i->af2);
        field(b, 249, 16, 0, 0, i->af1); field(b, 271, 22, 0, 0, i->af0);
    } else if (number == 2) {
        field(b, 61, 8, 0, 0, i->iode); field(b, 69, 16, 0, 0, i->crs); field(b, 91, 16, 0, 0, i->delta_n);
        field(b, 107, 8, 121, 24, i->m0); field(b, 151, 16, 0, 0, i->cuc); field(b, 167, 8, 181, 24, i->e);
        field(b, 211, 16, 0, 0, i->cus); field(b, 227, 8, 241, 24, i->root_a); field(b, 271, 16, 0, 0, i->toe);
        field(b, 287, 1, 0, 0, i->fit);
    } else if (number == 3) {
        field(b, 61, 16, 0, 0, i->cic); field(b, 77, 8, 91, 24, i->omega0); field(b, 121, 16, 0, 0, i->cis);
        field(b, 137, 8, 151, 24, i->i0); field(b, 181, 16, 0, 0, i->crc); field(b, 197, 8, 211, 24, i->omega);
        field(b, 241, 24, 0, 0, i->omega_dot); field(b, 271, 8, 0, 0, i->iode); field(b, 279, 14, 0, 0, i->idot);
    } else {
        field(b, 61, 2, 0, 0, 1);
        field(b, 63, 6, 0, 0, page);
        if (page != 56) return;
        static const int at[8] = {69, 77, 91, 99, 107, 121, 129, 137};
        for (int k = 0; k < 8; k++) field(b, at[k], 8, 0, 0, k < 4 ? ion.alpha[k] : ion.beta[k - 4]);
    }
}

/* ---- lines: kept whole, since their order is that of blocks which are reversed ---- */

struct line { char text[124]; int size; };

static struct line *lines;
static size_t lines_held, lines_room;

static struct line *new_line(void) {
    if (lines_held == lines_room) {
        lines_room = lines_room ? 2 * lines_room : 1 << 16;
        lines = realloc(lines, lines_room * sizeof *lines);
        if (!lines) exit(6);
    }
    return &lines[lines_held++];
}

static void add_subframe(int n, int k, long hour) {
    uint8_t bits[48] = {0}, sent[48] = {0};
    int number = k % 5 + 1, page = number == 4 && k / 5 % 25 == 17 ? 56 : 1;
    put(bits, 0, 8, 0x8B);
    put(bits, 30, 17, (600 * hour + k + 1) % 100800);
    put(bits, 49, 3, number);
    fill_subframe(bits, &gps[n], number, page);
    send_words(bits, sent);
    struct line *line = new_line();
    char *into = put_begin(line->text, 3600 * hour + 6 * k, 'L', 'G', n);
    put_hex(into, sent, 38);
    into[76] = '\n';
    line->size = into + 77 - line->text;
}

static void fill_word(struct bits *w, const struct eph *i, int number, long second) {
#define PUT(width, value) add(w, width, value)
    PUT(6, number);
    if (number >= 1 && number <= 4) PUT(10, i->iode);
    if (number == 1) { PUT(14, i->toe); PUT(32, i->m0); PUT(32, i->e); PUT(32, i->root_a); }
    if (number == 2) { PUT(32, i->omega0); PUT(32, i->i0); PUT(32, i->omega); PUT(14, i->idot); }
    if (number == 3) {
        PUT(24, i->omega_dot); PUT(16, i->delta_n); PUT(16, i->cuc); PUT(16, i->cus); PUT(16, i->crc); PUT(16, i->crs);
        PUT(8, i->ura);
    }
    if (number == 4) {
        PUT(6, i->sat); PUT(16, i->cic); PUT(16, i->cis); PUT(14, i->toc); PUT(31, i->af0); PUT(21, i->af1);
        PUT(6, i->af2);
    }
    if (number == 5) {
        PUT(11, ion.ai0); PUT(11, ion.ai1); PUT(14, ion.ai2); PUT(5, ion.regions); PUT(10, i->tgd); PUT(10, i->bgd);
        PUT(6, 0); PUT(12, (week - 1024) % 4096); PUT(20, second);
    }
}

/* the halves of a page, two numbers each */
static void fill_page(const struct bits *word, uint64_t *even, uint64_t *odd) {
    uint64_t high = word->words[0], low = word->words[1];
    even[0] = high >> 2;
    even[1] = (high << 62 | low >> 2) & ~(uint64_t)0 << 14;
    odd[0] = (uint64_t)1 << 63 | (low & 0xFFFF) << 46;
    uint32_t crc = crc_eight(0, __builtin_bswap64(even[0] >> 4));
    crc = crc_eight(crc, __builtin_bswap64(even[0] << 60 | even[1] >> 4 | odd[0] >> 54));
    crc = crc_eight(crc, __builtin_bswap64(odd[0] << 10));
    crc = crc >> 8 ^ crc_table[0][crc & 255];
    odd[1] = (uint64_t)(__builtin_bswap32(crc) >> 8) << 22;
}

static uint64_t odds[MOST][2];

static void add_halves(int n, int second, long hour) {
    uint64_t half[4];
    if (second % 2 == 0) {
        struct bits word = {0};
        int j = second / 2, number = j % 15 + 1;
        if (number <= 5) fill_word(&word, &gal[n], number, 3600 * hour + 2 * j);
        fill_page(&word, half, odds[n]);
    } else memcpy(half, odds[n], 16);
    half[0] = __builtin_bswap64(half[0]);
    half[1] = __builtin_bswap64(half[1]);
    for (int signal = 0; signal < 2; signal++) {
        struct line *line = new_line();
        char *into = put_begin(line->text, 3600 * hour + second, 'P', 'E', n);
        into[0] = "B5"[signal];
        into[1] = ' ';
        put_hex(into + 2, (uint8_t *)half, 15);
        into[32] = '\n';
        line->size = into + 33 - line->text;
    }
}

static void add_second(int second, long hour) {
    for (int n = 1; n <= sats && second % 6 == 0; n++) add_subframe(n, second / 6, hour);
    for (int n = 1; n <= sats; n++) add_halves(n, second, hour);
}

/* what is held is written in blocks of sixteen, each from its last line to its first; the rest stays where not all */
static void write_blocks(int all) {
    size_t from = 0;
    while (from + 16 <= lines_held || (all && from < lines_held)) {
        size_t to = from + 16 < lines_held ? from + 16 : lines_held;
        for (size_t i = to; i > from; i--) out_put(lines[i - 1].text, lines[i - 1].size);
        from = to;
    }
    memmove(lines, lines + from, (lines_held - from) * sizeof *lines);
    lines_held -= from;
}

static void make_one(uint64_t seed) {
    draw_hour(seed);
    for (int second = 0; second < 3600; second++) add_second(second, 0);
    write_blocks(1);
    for (int second = 0; second < 30; second++) add_second(second, 0);
    for (size_t i = 0; i < lines_held; i++) out_put(lines[i].text, lines[i].size);
}

static void make_hours(uint64_t seed, long hours) {
    for (long hour = 0; hour < hours; hour++) {
        draw_hour(seed + hour);
        for (int second = 0; second < 3600; second++) { add_second(second, hour); write_blocks(0); }
    }
    write_blocks(1);
}

/* ---- what comes of an hour, in the order of the ends: each kind of item has its own last second ---- */

static void put_ion_gps(void) {
    static const int which[8] = {P30, P27, P24, P24, M11, M14, M16, M16};
    char *into = put_text(out_room(704), "> ION G01 LNAV\n    ");
    into = put_date(into, 604800 * (int64_t)week + 528);
    for (int k = 0; k < 3; k++) into = put_number(into, ion.alpha[k], which[k]);
    *into++ = '\n';
    into = LINE(ion.alpha[3], ion.beta[0], ion.beta[1], ion.beta[2]), AT(P24, M11, M14, M16);
    into = LINE(ion.beta[3], 0), AT(M16, WHOLE);
    out_held = into - out_bytes;
}

static void put_ion_gal(void) {
    char *into = put_text(out_room(704), "> ION E01 IFNV\n    ");
    into = put_date(into, 604800 * (int64_t)week + 8);
    into = put_number(into, ion.ai0, P2);
    into = put_number(into, ion.ai1, P8);
    into = put_number(into, ion.ai2, P15);
    *into++ = '\n';
    into = LINE(ion.regions), AT(WHOLE);
    out_held = into - out_bytes;
}

static void put_all(struct eph *of, int64_t sent) {
    for (int n = 1; n <= sats; n++) {
        of[n].sent = sent;
        char *into = out_room(704);
        out_held = put_record(into, &of[n]) - out_bytes;
    }
}

static void make_rinex(uint64_t seed, const char *date, int leap) {
    draw_hour(seed);
    out_header("4.01", date, leap);
    put_ion_gps();
    put_all(gal, 3548);
    put_ion_gal();
    put_all(gps, 0);
}

static void make_partial(long count) {
    uint8_t bits[48] = {0}, sent[48] = {0};
    char text[160];
    struct eph zero = {0};
    put(bits, 0, 8, 0x8B);
    put(bits, 30, 17, 3);
    put(bits, 49, 3, 3);
    fill_subframe(bits, &zero, 3, 0);
    send_words(bits, sent);
    out_put("NAVCAP 1\n", 9);
    for (long i = 0; i < count; i++) {
        char *into = put_begin(text, 7201 * i, 'L', 'G', 5);
        put_hex(into, sent, 38);
        into[76] = '\n';
        out_put(text, into + 77 - text);
    }
}

int main(int count, char **words) {
    fill_crc();
    fill_digits();
    fill_parity();
    if (count >= 3 && !strcmp(words[1], "rinex")) fill_scales();
    if (count == 3 && !strcmp(words[1], "partial")) make_partial(atol(words[2]));
    else if (count == 3 && !strcmp(words[1], "list")) {
        char text[64];
        for (long i = 0; i < atol(words[2]); i++) out_put(text, sprintf(text, "%ld EPH G05 0 partial\n", 7201 * i));
    } else if (count >= 5) {
        uint64_t seed = strtoull(words[2], 0, 10);
        sats = atoi(words[3]);
        week = atoi(words[4]);
        if (sats < 1 || sats >= MOST) return 2;
        if (count == 5 && !strcmp(words[1], "make")) {
            out_put("NAVCAP 1\n", 9);
            make_one(seed);
        } else if (count == 7 && !strcmp(words[1], "rinex")) make_rinex(seed, words[5], atoi(words[6]));
        else if (count == 7 && !strcmp(words[1], "hours")) {
            char text[64];
            out_put(text, sprintf(text, "NAVCAP 2 %d %s\n", week, words[6]));
            make_hours(seed, atol(words[5]));
        } else return 2;
    } else return 2;
    out_flush();
    return 0;
}
