/* The plain program that bench/jobs.sh and bench/instructions.sh compare with on RINEX navigation files.
 *
 *   files FROM rinex DATE LEAP     FROM to rinex; `rinex3` the same without the titles
 *   files FROM rtcm                FROM to rtcm
 *   files FROM list                FROM to list
 *   files FROM merged DATE LEAP    FROM to merged
 *   files FROM cover               FROM to cover
 *
 * FROM is rinex or rinex3. Standard input is read; output and report are those of navbridge, byte for byte, where no record
 * is rejected and all are ephemerides; of others it says `rejected` alone, and it passes over ionosphere parameters. Of items
 * of one toe, satellite and issue that differ it keeps the order of the input.
 */
#include "reading.h"

/* ---- records ---- */

static int from_3;
static unsigned long long records, refused, passed, items;

static inline unsigned two(const char *p) {
    unsigned tens = (unsigned char)p[0] - '0', ones = (unsigned char)p[1] - '0';
    if (p[0] == ' ') tens = 0;
    rejected |= tens > 9 || ones > 9;
    return 10 * tens + ones;
}

static int64_t days_of(int64_t year, unsigned month, unsigned day) {
    year -= month <= 2;
    int64_t era = year / 400, of_era = year - era * 400;
    unsigned of_year = (153 * (month > 2 ? month - 3 : month + 9) + 2) / 5 + day - 1;
    return era * 146097 + of_era * 365 + of_era / 4 - of_era / 100 + of_year - 719468 - 3657;
}

static int is_leap(int64_t year) { return year % 4 == 0 && (year % 100 != 0 || year % 400 == 0); }

/* columns from one on of a line as long as any; the lines of a record stand in a table, each filled up with blanks */
struct text { const char *at; int size; };

static char filled[16][96];

static const char *whole_line(const struct text *line, int number) {
    if (__builtin_expect(line->size >= 80, 1)) return line->at;
    memset(filled[number], ' ', 80);
    memcpy(filled[number], line->at, line->size);
    return filled[number];
}

static inline int is_blank(const char *p) {
    for (int i = 0; i < 19; i++) if (p[i] != ' ') return 0;
    return 1;
}

static const int uppers[16] = {240, 340, 485, 685, 965, 1365, 2400, 4800, 9600, 19200, 38400, 76800, 153600, 307200, 614400, 0};

static int ura_of(int64_t cm) {
    if (cm < 0 || cm > 614400) return 15;
    int index = 0;
    while (uppers[index] < cm) index++;
    return index;
}

static int sisa_of(int64_t cm) {
    if (cm < 0 || cm > 600) return 255;
    if (cm <= 49) return cm;
    if (cm <= 98) return 50 + (cm - 50 + 1) / 2;
    if (cm <= 196) return 75 + (cm - 100 < 0 ? 0 : (cm - 100 + 3) / 4);
    return 100 + (cm - 200 < 0 ? 0 : (cm - 200 + 15) / 16);
}

/* the ephemeris of eight lines, which begin with the satellite's; whether it is one */
static inline int read_record(const struct text *lines, int gal, int sat, struct eph *i) {
    rejected = 0;
    const char *l0 = whole_line(&lines[0], 0);
    unsigned year = two(l0 + 4) * 100 + two(l0 + 6), month = two(l0 + 9), day = two(l0 + 12), hour = two(l0 + 15),
             minute = two(l0 + 18), second = two(l0 + 21);
    static const int lengths[13] = {0, 31, 28, 31, 30, 31, 30, 31, 31, 30, 31, 30, 31};
    if (rejected || month < 1 || month > 12 || day < 1 || day > lengths[month] + (unsigned)(month == 2 && is_leap(year)) ||
        hour > 23 || minute > 59 || second > 59) return 0;
    int64_t moment = 86400 * days_of(year, month, day) + 3600 * hour + 60 * minute + second;
    if (moment < 0) return 0;
    i->gal = gal;
    i->sat = sat;
    i->af0 = in_width(number_at(l0 + 23, gal ? P34 : P31), gal ? 31 : 22);
    i->af1 = in_width(number_at(l0 + 42, gal ? P46 : P43), gal ? 21 : 16);
    i->af2 = in_width(number_at(l0 + 61, gal ? P59 : P55), gal ? 6 : 8);
    const char *l1 = whole_line(&lines[1], 1) + 4, *l2 = whole_line(&lines[2], 2) + 4, *l3 = whole_line(&lines[3], 3) + 4,
               *l4 = whole_line(&lines[4], 4) + 4, *l5 = whole_line(&lines[5], 5) + 4, *l6 = whole_line(&lines[6], 6) + 4,
               *l7 = whole_line(&lines[7], 7) + 4;
    i->iode = in_bits(number_at(l1, WHOLE), gal ? 10 : 8);
    i->crs = in_width(number_at(l1 + 19, P5), 16);
    i->delta_n = in_width(number_at(l1 + 38, PI43), 16);
    i->m0 = in_width(number_at(l1 + 57, PI31), 32);
    i->cuc = in_width(number_at(l2, P29), 16);
    i->e = in_bits(number_at(l2 + 19, P33), 32);
    i->cus = in_width(number_at(l2 + 38, P29), 16);
    i->root_a = in_bits(number_at(l2 + 57, P19), 32);
    i->toe = in_bits(number_at(l3, gal ? STEP60 : STEP16), 16);
    i->cic = in_width(number_at(l3 + 19, P29), 16);
    i->omega0 = in_width(number_at(l3 + 38, PI31), 32);
    i->cis = in_width(number_at(l3 + 57, P29), 16);
    i->i0 = in_width(number_at(l4, PI31), 32);
    i->crc = in_width(number_at(l4 + 19, P5), 16);
    i->omega = in_width(number_at(l4 + 38, PI31), 32);
    i->omega_dot = in_width(number_at(l4 + 57, PI43), 24);
    i->idot = in_width(number_at(l5, PI43), 14);
    i->toe_week = in_bits(number_at(l5 + 38, WHOLE), 14);
    if (gal) {
        i->ura = is_blank(l6) ? 255 : sisa_of(number_at(l6, CENTI));
        i->health = in_bits(number_at(l6 + 19, WHOLE), 9) & ~0x38;
        i->tgd = in_width(number_at(l6 + 38, P32), 10);
        i->bgd = in_width(number_at(l6 + 57, P32), 10);
    } else {
        i->l2_code = is_blank(l5 + 19) ? 0 : in_bits(number_at(l5 + 19, WHOLE), 2);
        i->l2p = is_blank(l5 + 57) ? 0 : in_bits(number_at(l5 + 57, WHOLE), 1);
        i->ura = is_blank(l6) ? 15 : ura_of(number_at(l6, CENTI));
        i->health = in_bits(number_at(l6 + 19, WHOLE), 6);
        i->tgd = in_width(number_at(l6 + 38, P31), 8);
        i->iodc = in_bits(number_at(l6 + 57, WHOLE), 10);
        int64_t hours = is_blank(l7 + 19) ? 0 : number_at(l7 + 19, WHOLE);
        if (hours == 2 || hours == 3 || hours < 0 || hours > 255) return 0;
        i->fit = hours != 0 && hours != 4;
    }
    i->sent = is_blank(l7) ? UNKNOWN : number_at(l7, WHOLE);
    if (i->sent < -302400 || i->sent > 907199) i->sent = UNKNOWN;
    int step = gal ? 60 : 16;
    int64_t of_week = moment % 604800;
    if (rejected || i->toe >= 604800 / step || of_week % step) return 0;
    i->toc = of_week / step;
    int64_t toe = 604800 * (int64_t)i->toe_week + step * i->toe;
    return toe - 302400 < moment && moment <= toe + 302400;
}

/* ---- what becomes of an item ---- */

enum { RINEX, RTCM, LIST, MERGED, COVER };
static int into_form, titles = 1;

static inline void write_record(const struct eph *i) {
    char *into = out_room(704), *end = put_record(into, i);
    size_t size = end - into, title = titles ? 0 : 15;
    if (title) memmove(into, into + title, size - title);
    out_held += size - title;
}

/* what is kept until the end: of merged the items, of cover the ranges; each with the number that it is ordered by */
struct kept { uint64_t key; uint32_t at; };
static struct kept *kept, *other;
static struct eph *ephs;
static uint32_t kept_held, kept_room;

static void keep(uint64_t key, const struct eph *i) {
    if (kept_held == kept_room) {
        kept_room = kept_room ? 2 * kept_room : 1024;
        kept = realloc(kept, kept_room * sizeof *kept);
        if (i) ephs = realloc(ephs, kept_room * sizeof *ephs);
        if (!kept || (i && !ephs)) exit(6);
    }
    kept[kept_held].key = key;
    kept[kept_held].at = kept_held;
    if (i) ephs[kept_held] = *i;
    kept_held++;
}

/* by eight bits at a time, those alone that are not all alike */
static void sort_kept(void) {
    if (!kept_held) return;
    other = malloc(kept_held * sizeof *other);
    if (!other) exit(6);
    for (int shift = 0; shift < 64; shift += 8) {
        uint32_t counts[256] = {0}, sum = 0;
        for (uint32_t i = 0; i < kept_held; i++) counts[kept[i].key >> shift & 255]++;
        if (counts[kept[0].key >> shift & 255] == kept_held) continue;
        for (int i = 0; i < 256; i++) { uint32_t count = counts[i]; counts[i] = sum; sum += count; }
        for (uint32_t i = 0; i < kept_held; i++) other[counts[kept[i].key >> shift & 255]++] = kept[i];
        struct kept *swap = kept;
        kept = other;
        other = swap;
    }
}

static inline void take_item(const struct eph *i, unsigned long long line) {
    items++;
    int64_t toe = 604800 * (int64_t)i->toe_week + i->toe * (i->gal ? 60 : 16);
    if (into_form == RINEX) write_record(i);
    else if (into_form == RTCM) put_eph_frame(i);
    else if (into_form == LIST) {
        char *into = put_decimal(out_room(80), line);
        into = put_sat(put_text(into, " EPH "), i->gal, i->sat);
        *into++ = ' ';
        into = put_decimal(into, i->iode);
        *into++ = ' ';
        into = put_decimal(into, i->toe_week);
        *into++ = ' ';
        into = put_decimal(into, i->toe * (i->gal ? 60 : 16));
        *into++ = '\n';
        out_held = into - out_bytes;
    } else if (into_form == MERGED) keep((uint64_t)toe << 18 | i->gal << 16 | i->sat << 10 | (i->gal ? i->iode : i->iodc), i);
    else {
        int64_t half = i->fit && !i->gal ? 10800 : 7200;
        uint64_t from = toe < half ? 0 : toe - half;
        keep((uint64_t)i->gal << 63 | (uint64_t)i->sat << 56 | from << 16 | (half == 10800), NULL);
    }
}

/* all but the time of sending */
static int is_alike(const struct eph *a, const struct eph *b) {
    struct eph x = *a;
    x.sent = b->sent;
    return !memcmp(&x, b, sizeof x);
}

static void write_merged(void) {
    sort_kept();
    for (uint32_t i = 0; i < kept_held;) {
        uint32_t end = i + 1;
        while (end < kept_held && kept[end].key == kept[i].key) end++;
        for (uint32_t k = i; k < end; k++) {
            struct eph *e = &ephs[kept[k].at];
            if (e->gal < 0) continue;
            for (uint32_t m = k + 1; m < end; m++) {
                struct eph *f = &ephs[kept[m].at];
                if (f->gal < 0 || !is_alike(e, f)) continue;
                if (f->sent < e->sent) e->sent = f->sent;
                f->gal = -1;
            }
            write_record(e);
            items++;
        }
        i = end;
    }
}

static void write_cover(void) {
    sort_kept();
    for (uint32_t i = 0; i < kept_held;) {
        int gal = kept[i].key >> 63, sat = kept[i].key >> 56 & 127;
        uint64_t from = kept[i].key >> 16 & 0xFFFFFFFFFF, to = from;
        for (; i < kept_held && (kept[i].key >> 56) == (uint64_t)(gal << 7 | sat); i++) {
            uint64_t start = kept[i].key >> 16 & 0xFFFFFFFFFF, size = kept[i].key & 1 ? 21600 : 14400;
            if (start > to) break;
            if (start + size > to) to = start + size;
        }
        char *into = put_sat(out_room(80), gal, sat);
        *into++ = ' ';
        into = put_decimal(into, from);
        *into++ = ' ';
        into = put_decimal(into, to);
        *into++ = '\n';
        out_held = into - out_bytes;
    }
}

/* ---- lines ---- */

#define ROOM (1 << 18)

static char in_bytes[ROOM + 128];
static struct text lines[16];
static int lines_held;
static unsigned long long line_number, title_number;

/* a record is whole: the next one begins, or the input has ended */
static inline void end_record(void) {
    if (!lines_held) return;
    records++;
    const char *title = lines[0].at;
    int first = from_3 ? 0 : 1, gal, sat = 0;
    if (from_3) {
        gal = title[0] == 'E';
        if (lines[0].size < 3 || (title[0] != 'G' && !gal)) { passed++; return; }
        if (gal) {
            if (lines_held < 6) { passed++; return; }
            int64_t sources = number_at(whole_line(&lines[5], 5) + 23, WHOLE);
            if (sources < 0 || sources > 1023 || sources & 2 || !(sources & 5)) { passed++; return; }
        }
        sat = two(title + 1);
    } else {
        gal = lines[0].size >= 14 && title[6] == 'E';
        if (lines[0].size < 14 || memcmp(title + 2, "EPH", 3) || memcmp(title + 10, gal ? "INAV" : "LNAV", 4) ||
            (title[6] != 'G' && !gal)) { passed++; return; }
        sat = two(title + 7);
    }
    struct eph i;
    memset(&i, 0, sizeof i);
    if (sat < 1 || sat > (gal ? 36 : 32) || lines_held < first + 8 || (first && memcmp(title + 6, lines[1].at, 3)) ||
        !read_record(lines + first, gal, sat, &i)) {
        refused++;
        fprintf(stderr, "line %llu rejected\n", title_number);
        return;
    }
    take_item(&i, title_number);
}

int main(int count, char **words) {
    static const char *names[] = {"rinex", "rtcm", "list", "merged", "cover"};
    fill_tables();
    fill_times();
    if (count < 3) return 2;
    from_3 = !strcmp(words[1], "rinex3");
    titles = strcmp(words[2], "rinex3");
    into_form = !titles ? RINEX : -1;
    for (int i = 0; i < 5; i++) if (!strcmp(words[2], names[i])) into_form = i;
    int has_header = into_form == RINEX || into_form == MERGED;
    if (into_form < 0 || (has_header && count != 5)) return 2;
    size_t held = 0, searched = 0;
    int in_header = 1;
    for (int ended = 0; !ended;) {
        ssize_t some = read(0, in_bytes + held, ROOM - held);
        if (some < 0) return 3;
        held += some;
        if (some == 0) {
            ended = 1;
            if (held > searched) in_bytes[held++] = '\n';
        }
        char *p = in_bytes + searched, *end;
        while ((end = memchr(p, '\n', in_bytes + held - p))) {
            int size = end - p;
            if (size && p[size - 1] == '\r') size--;
            line_number++;
            if (in_header) {
                if (line_number == 1 && (size < 80 || memcmp(p + 60, "RINEX VERSION / TYPE", 20) || p[20] != 'N')) return 5;
                if (size >= 73 && !memcmp(p + 60, "END OF HEADER", 13)) {
                    in_header = 0;
                    if (has_header) out_header(titles ? "4.01" : "3.05", words[3], atoi(words[4]));
                }
            } else if (size && (from_3 ? *p != ' ' : *p == '>')) {
                end_record();
                lines[0] = (struct text){p, size};
                lines_held = 1;
                title_number = line_number;
            } else if (lines_held && lines_held < 16) lines[lines_held++] = (struct text){p, size};
            p = end + 1;
        }
        if (ended) break;
        /* the lines of an unfinished record stay */
        char *from = lines_held ? (char *)lines[0].at : p;
        held -= from - in_bytes;
        searched = p - from;
        for (int i = 0; i < lines_held; i++) lines[i].at -= from - in_bytes;
        memmove(in_bytes, from, held);
    }
    if (in_header) return 5;
    end_record();
    unsigned long long read_items = items;
    items = 0;
    if (into_form == MERGED) write_merged();
    if (into_form == COVER) write_cover();
    out_flush();
    fprintf(stderr, "records %llu\nrefused %llu\npassed %llu\nitems %llu\n", records, refused, passed, read_items);
    if (into_form == MERGED) fprintf(stderr, "kept %llu\n", items);
    return 0;
}
