/* What the plain programs share that read subframes and page parts: parity, page parts, words, and the assembly of
 * issues in their periods (docs/FORMATS.md, "Issue assembly"). What belongs to an issue is kept as it was sent, its
 * compared bits alone, and its fields are read when the period closes.
 */
#include "records.h"

enum { WEEK_SECONDS = 604800, GPS_KEYS = 33 * 256, KEYS = GPS_KEYS + 37 * 1024 };

static uint32_t window = 7200, greatest;
static int reference;
static unsigned long long whole, partial, contradicted, nohealth, again;
static int to_list, to_rtcm;

/* ---- parity ---- */

/* the source bits of ten words of 30 bits; the number of the first word of wrong parity, or 0 */
static inline int read_words(const uint32_t *sent, uint32_t *source) {
    unsigned last = 0;
    for (int word = 0; word < 10; word++) {
        uint32_t bits = (sent[word] >> 6 ^ -(last & 1)) & 0xFFFFFF;
        if (tail_of(bits, last) != (sent[word] & 63)) return word + 1;
        source[word] = bits;
        last = sent[word] & 3;
    }
    return 0;
}

/* ---- issues: a key is a satellite and an issue, or the ionosphere's content ---- */

typedef struct { uint64_t bits[4]; } content;

/* a period: its blocks so far */
struct period {
    uint32_t key, first, last;
    int32_t next;               /* of the key; or of the free ones */
    uint8_t seen, differs, sat; /* by kind; the satellite of an ionosphere */
    content kinds[4];
    uint64_t side, fit, tag;    /* the greatest, the greatest, the least of time tag and bits; + 1 where there is one */
};

static struct period *periods;
static uint32_t periods_room, periods_open;
static int32_t free_period = -1;
static int32_t *keys;             /* by key: its first open period, or -1 */
static uint32_t *open_at;         /* the open periods */
static uint64_t soonest = UINT64_MAX;

struct written { content kinds[4]; uint64_t side, fit, health; int week, is_there; };
static struct written *written;   /* by key: the last item */
static uint32_t *written_at, written_held, written_room;

struct ion_key { uint64_t bits; int gal; uint32_t key; };
static struct ion_key *ions;
static uint32_t ions_held, ions_room, keys_held = KEYS, keys_room;

struct health { uint64_t stamp, bits; };
static struct { struct health *items; uint32_t held, room; } healths[37];
static int healths_new; /* there are some since old ones were left out */

static void *grown(void *old, uint32_t *room, size_t size) {
    *room = *room ? 2 * *room : 64;
    void *new = realloc(old, *room * size);
    if (!new) exit(6);
    return new;
}

static void fill_keys(void) {
    keys_room = 2 * KEYS;
    keys = malloc(keys_room * sizeof *keys);
    written_at = calloc(keys_room, sizeof *written_at);
    if (!keys || !written_at) exit(6);
    for (uint32_t i = 0; i < keys_room; i++) keys[i] = -1;
}

static int32_t new_period(uint32_t key, uint32_t stamp) {
    if (free_period < 0) {
        uint32_t from = periods_room;
        periods = grown(periods, &periods_room, sizeof *periods);
        open_at = realloc(open_at, periods_room * sizeof *open_at);
        if (!open_at) exit(6);
        for (uint32_t i = periods_room; i > from; i--) { periods[i - 1].next = free_period; free_period = i - 1; }
    }
    int32_t at = free_period;
    struct period *p = &periods[at];
    free_period = p->next;
    p->key = key; p->first = p->last = stamp; p->seen = p->differs = 0;
    p->side = p->fit = 0; p->tag = UINT64_MAX;
    open_at[periods_open++] = at;
    if (stamp < soonest) soonest = stamp;
    return at;
}

/* two blocks of one kind, and what else is kept */
static void join(struct period *into, const struct period *p) {
    for (int kind = 0; kind < 4; kind++)
        if (p->seen >> kind & 1) {
            if (!(into->seen >> kind & 1)) into->kinds[kind] = p->kinds[kind];
            else if (memcmp(&into->kinds[kind], &p->kinds[kind], sizeof(content))) into->differs = 1;
        }
    into->seen |= p->seen;
    into->differs |= p->differs;
    if (p->side > into->side) into->side = p->side;
    if (p->fit > into->fit) into->fit = p->fit;
    if (p->tag < into->tag) { into->tag = p->tag; into->sat = p->sat; }
    if (p->first < into->first) into->first = p->first;
    if (p->last > into->last) into->last = p->last;
}

static void forget(int32_t at) {
    for (uint32_t i = 0; i < periods_open; i++) if (open_at[i] == (uint32_t)at) { open_at[i] = open_at[--periods_open]; break; }
    periods[at].next = free_period;
    free_period = at;
}

/* the period of a key that a block of this time tag belongs to; those that it connects become one */
static struct period *period_slow(uint32_t key, uint32_t stamp) {
    int32_t found = -1, *link = &keys[key];
    while (*link >= 0) {
        struct period *p = &periods[*link];
        if ((uint64_t)stamp + window >= p->first && stamp <= (uint64_t)p->last + window) {
            if (found < 0) found = *link;
            else {
                int32_t gone = *link;
                *link = p->next;
                join(&periods[found], p);
                forget(gone);
                continue;
            }
        }
        link = &p->next;
    }
    if (found < 0) {
        found = new_period(key, stamp);
        periods[found].next = keys[key];
        keys[key] = found;
    }
    struct period *p = &periods[found];
    if (stamp < p->first) p->first = stamp;
    if (stamp > p->last) p->last = stamp;
    return p;
}

static inline struct period *period_of(uint32_t key, uint32_t stamp) {
    int32_t at = keys[key];
    if (at >= 0) {
        struct period *p = &periods[at];
        if (p->next < 0 && stamp >= p->first && stamp <= (uint64_t)p->last + window) {
            if (stamp > p->last) p->last = stamp;
            return p;
        }
    }
    return period_slow(key, stamp);
}

static inline void put_kind(struct period *p, int kind, const content *c) {
    uint64_t *k = p->kinds[kind].bits;
    if (!(p->seen >> kind & 1)) {
        p->seen |= 1 << kind;
        p->kinds[kind] = *c;
    } else if ((k[0] ^ c->bits[0]) | (k[1] ^ c->bits[1]) | (k[2] ^ c->bits[2]) | (k[3] ^ c->bits[3])) p->differs = 1;
}

static uint32_t ion_key(uint64_t bits, int gal) {
    for (uint32_t i = 0; i < ions_held; i++) if (ions[i].bits == bits && ions[i].gal == gal) return ions[i].key;
    if (ions_held == ions_room) ions = grown(ions, &ions_room, sizeof *ions);
    if (keys_held == keys_room) {
        uint32_t from = keys_room, room = keys_room;
        keys = grown(keys, &keys_room, sizeof *keys);
        written_at = grown(written_at, &room, sizeof *written_at);
        for (uint32_t i = from; i < keys_room; i++) { keys[i] = -1; written_at[i] = 0; }
    }
    ions[ions_held] = (struct ion_key){bits, gal, keys_held};
    ions_held++;
    return keys_held++;
}

static void take_ion(uint64_t bits, int gal, int sat, uint32_t stamp, uint32_t tag) {
    struct period *p = period_of(ion_key(bits, gal), stamp);
    uint64_t it = (uint64_t)stamp << 32 | tag;
    p->seen = 1;
    p->kinds[0].bits[0] = bits;
    if (it < p->tag || (it == p->tag && sat < p->sat)) { p->tag = it; p->sat = sat; }
}

/* ---- subframes ---- */

/* the source bits of a subframe of right parity; why it is refused, or "" where it is not used */
static const char *take_subframe(const uint32_t *w, int sat, uint32_t stamp) {
    unsigned count = w[1] >> 7, number = w[1] >> 2 & 7;
    if (count >= 100800) return "tow";
    content c;
    if (number == 1) {
        unsigned issue = w[7] >> 16;
        if ((w[7] & 0xFFFF) >= 37800) return "time";
        c = (content){{w[2] & 3, w[6] & 0xFF, (uint64_t)w[7] << 32 | w[8], w[9] & 0xFFFFFC}};
        struct period *p = period_of(sat << 8 | issue, stamp);
        put_kind(p, 0, &c);
        uint64_t side = (uint64_t)stamp << 14 | (w[2] >> 2 & 0xFFF) << 1 | w[3] >> 23, second = count ? 6 * count - 6 : 604794;
        if (side + 1 > p->side) p->side = side + 1;
        uint64_t tag = (uint64_t)stamp << 32 | (uint64_t)(w[2] >> 14) << 20 | second;
        if (tag < p->tag) p->tag = tag;
    } else if (number == 2) {
        if ((w[9] >> 8) >= 37800) return "time";
        c = (content){{(uint64_t)w[2] << 32 | w[3], (uint64_t)w[4] << 32 | w[5], (uint64_t)w[6] << 32 | w[7],
                       (uint64_t)w[8] << 32 | (w[9] & 0xFFFF00)}};
        struct period *p = period_of(sat << 8 | w[2] >> 16, stamp);
        put_kind(p, 1, &c);
        uint64_t fit = ((uint64_t)stamp << 1 | (w[9] >> 7 & 1)) + 1;
        if (fit > p->fit) p->fit = fit;
    } else if (number == 3) {
        c = (content){{(uint64_t)w[2] << 32 | w[3], (uint64_t)w[4] << 32 | w[5], (uint64_t)w[6] << 32 | w[7],
                       (uint64_t)w[8] << 32 | (w[9] & 0xFFFFFC)}};
        put_kind(period_of(sat << 8 | w[9] >> 16, stamp), 2, &c);
    } else if (number == 4 && (w[2] >> 16 & 63) == 56) {
        uint64_t bits = (uint64_t)(w[2] & 0xFFFF) << 48 | (uint64_t)w[3] << 24 | w[4];
        take_ion(bits, 0, sat, stamp, count ? 6 * count - 6 : 604794);
    } else return "";
    return NULL;
}

/* ---- page parts: one for each second, satellite, signal and kind, and the further ones in a list ---- */

struct half { uint64_t high, low; }; /* bit 0 tells that there is one */
struct second { uint64_t stamp; struct half lanes[4 * 37]; };
struct more { uint32_t stamp, lane; struct half half; };

static struct second *seconds;
static struct more *mores;
static uint32_t mores_held, mores_room;

static inline struct second *second_of(uint32_t stamp) {
    if (!seconds) {
        seconds = calloc(window + 2, sizeof *seconds);
        if (!seconds) exit(6);
    }
    return &seconds[stamp % (window + 2)];
}

static inline int is_right(const struct half *even, const struct half *odd) {
    uint64_t a = even->high >> 4, b = even->high << 60 | even->low >> 4 | odd->high >> 54, c = odd->high << 10 | odd->low >> 54;
    uint32_t crc = crc_eight(0, __builtin_bswap64(a));
    crc = crc_eight(crc, __builtin_bswap64(b));
    crc = crc_eight(crc, __builtin_bswap64(c));
    crc = crc >> 8 ^ crc_table[0][(crc ^ odd->low >> 46) & 255];
    return __builtin_bswap32(crc) >> 8 == (odd->low >> 22 & 0xFFFFFF);
}

/* the word of two parts; why it is refused, or "" where it is not used */
static const char *take_word(const struct half *even, const struct half *odd, int sat, uint32_t stamp) {
    uint64_t high = even->high << 2 | even->low >> 62, low = (even->low << 2 & ~(uint64_t)0xFFFF) | odd->high << 2 >> 48;
    unsigned type = high >> 58, time;
    if (type == 0 || type > 5) return "";
    if (type < 5) {
        if (type == 1) { time = high >> 34 & 0x3FFF; low &= ~(uint64_t)3; }
        else if (type == 2) { time = 0; low &= ~(uint64_t)3; }
        else if (type == 3) { time = 0; }
        else { time = low >> 60 | 0; low &= ~(uint64_t)3; }
        if (type == 4) {
            if ((int)(high >> 42 & 63) != sat) return "satellite";
            time = (high << 54 >> 50 | low >> 60) & 0x3FFF;
        }
        if (time >= 10080) return "time";
        if (type == 3) { unsigned sisa = low & 255; if (sisa >= 126 && sisa < 255) return "sisa"; }
        content c = {{high, low, 0, 0}};
        put_kind(period_of(GPS_KEYS + (sat << 10 | (high >> 48 & 0x3FF)), stamp), type - 1, &c);
        return NULL;
    }
    /* 6 type, 11 ai0, 11 ai1, 14 ai2, 5 regions, 10 bgd, 10 bgd, 2 2 1 1, 12 wn, 20 tow, 23 spare */
    uint64_t ion = high >> 17 & 0x1FFFFFFFFFF;
    uint64_t health = (high & 0x1FFFF) << 9 | low >> 55, tag = low >> 23 & 0xFFFFFFFF;
    if ((tag & 0xFFFFF) >= WEEK_SECONDS) return "time";
    uint64_t bits = health << 32 | tag;
    uint32_t at = healths[sat].held;
    struct health *items = healths[sat].items;
    while (at > 0 && (items[at - 1].stamp > stamp || (items[at - 1].stamp == stamp && items[at - 1].bits > bits))) at--;
    if (!at || items[at - 1].stamp != stamp || items[at - 1].bits != bits) {
        if (healths[sat].held == healths[sat].room) items = healths[sat].items = grown(items, &healths[sat].room, sizeof *items);
        memmove(items + at + 1, items + at, (healths[sat].held - at) * sizeof *items);
        items[at] = (struct health){stamp, bits};
        healths[sat].held++;
        healths_new = 1;
    }
    take_ion(ion, 1, sat, stamp, tag);
    return NULL;
}

static const char *half_slow(struct half h, uint32_t stamp, unsigned lane, int sat, int odd, int is_there) {
    const char *said = NULL;
    if (is_there) {
        for (uint32_t i = 0; i < mores_held; i++) {
            const struct more *m = &mores[i];
            if (m->stamp == stamp && m->lane == lane && m->half.high == h.high && m->half.low == h.low) return NULL;
        }
    }
    for (uint32_t i = 0; i < mores_held; i++) {
        const struct more *m = &mores[i];
        if (m->stamp == (odd ? stamp - 1 : stamp + 1) && m->lane == (lane ^ 1) &&
            is_right(odd ? &m->half : &h, odd ? &h : &m->half))
            said = take_word(odd ? &m->half : &h, odd ? &h : &m->half, sat, odd ? stamp : stamp + 1);
    }
    if (is_there) {
        uint32_t kept = 0;
        for (uint32_t i = 0; i < mores_held; i++) if ((uint64_t)mores[i].stamp + window + 1 >= greatest) mores[kept++] = mores[i];
        mores_held = kept;
        if (mores_held == mores_room) mores = grown(mores, &mores_room, sizeof *mores);
        mores[mores_held++] = (struct more){stamp, lane, h};
    }
    return said;
}

/* a page part as sixteen bytes, the first bit highest; as take_word */
static inline const char *take_half(uint64_t high, uint64_t low, int sat, int signal, uint32_t stamp) {
    if (high >> 62 & 1) return "";
    int odd = high >> 63;
    struct half h = {high, (odd ? low & ~(uint64_t)0 << 22 : low & ~(uint64_t)0 << 14) | 1};
    unsigned lane = 4 * sat + 2 * signal + odd;
    struct second *here = second_of(stamp);
    if (here->stamp != (uint64_t)stamp + 1) { memset(here, 0, sizeof *here); here->stamp = (uint64_t)stamp + 1; }
    int is_there = here->lanes[lane].low != 0;
    if (is_there && here->lanes[lane].high == h.high && here->lanes[lane].low == h.low) return NULL;
    const char *said = NULL;
    if (odd ? stamp > 0 : stamp < UINT32_MAX) {
        const struct second *other = second_of(odd ? stamp - 1 : stamp + 1);
        const struct half *partner = &other->lanes[lane ^ 1];
        if (other->stamp == (uint64_t)stamp + (odd ? 0 : 2) && partner->low && is_right(odd ? partner : &h, odd ? &h : partner))
            said = take_word(odd ? partner : &h, odd ? &h : partner, sat, odd ? stamp : stamp + 1);
    }
    if (__builtin_expect(is_there || mores_held, 0)) {
        const char *other = half_slow(h, stamp, lane, sat, odd, is_there);
        if (other) said = other;
    }
    if (!is_there) here->lanes[lane] = h;
    return said;
}

/* ---- what a period gives ---- */

static int gps_week(unsigned number) {
    int low = reference - 512;
    return low + (int)((number - (unsigned)low) & 1023);
}

static int gal_week(unsigned number) {
    int low = reference - 2048 < 1024 ? 1024 : reference - 2048;
    return low + (int)((number + 1024 - (unsigned)low) & 4095);
}

/* the time nearest to t with that second of week */
static int64_t near(int64_t t, int64_t second) {
    int64_t ahead = (second - t % WEEK_SECONDS + WEEK_SECONDS) % WEEK_SECONDS;
    return t + (ahead <= 302400 ? ahead : ahead - WEEK_SECONDS);
}

static int64_t signed_of(uint64_t bits, int width) { return (int64_t)(bits << (64 - width)) >> (64 - width); }

static void read_gps(const struct period *p, struct eph *i) {
    const uint64_t *a = p->kinds[0].bits, *b = p->kinds[1].bits, *c = p->kinds[2].bits;
    uint64_t side = p->side - 1;
    i->gal = 0; i->sat = p->key >> 8; i->iode = p->key & 255;
    i->iodc = a[0] << 8 | i->iode; i->tgd = signed_of(a[1], 8); i->toc = a[2] >> 32 & 0xFFFF;
    i->af2 = signed_of(a[2] >> 16, 8); i->af1 = signed_of(a[2], 16); i->af0 = signed_of(a[3] >> 2, 22);
    i->l2p = side & 1; i->health = side >> 1 & 63; i->ura = side >> 7 & 15; i->l2_code = side >> 11 & 3;
    i->fit = (p->fit - 1) & 1;
    i->crs = signed_of(b[0] >> 32, 16); i->delta_n = signed_of(b[0] >> 8, 16);
    i->m0 = (int32_t)((b[0] & 255) << 24 | b[1] >> 32); i->cuc = signed_of(b[1] >> 8, 16);
    i->e = (b[1] & 255) << 24 | b[2] >> 32; i->cus = signed_of(b[2] >> 8, 16); i->root_a = (b[2] & 255) << 24 | b[3] >> 32;
    i->toe = b[3] >> 8 & 0xFFFF;
    i->cic = signed_of(c[0] >> 40, 16); i->omega0 = (int32_t)((c[0] >> 32 & 255) << 24 | (c[0] & 0xFFFFFF));
    i->cis = signed_of(c[1] >> 40, 16); i->i0 = (int32_t)((c[1] >> 32 & 255) << 24 | (c[1] & 0xFFFFFF));
    i->crc = signed_of(c[2] >> 40, 16); i->omega = (int32_t)((c[2] >> 32 & 255) << 24 | (c[2] & 0xFFFFFF));
    i->omega_dot = signed_of(c[3] >> 32, 24); i->idot = signed_of(c[3] >> 2, 14);
    int64_t t = WEEK_SECONDS * (int64_t)gps_week(p->tag >> 20 & 1023) + (p->tag & 0xFFFFF);
    i->toe_week = near(t, 16 * i->toe) / WEEK_SECONDS;
    i->sent = t - WEEK_SECONDS * (int64_t)i->toe_week;
}

static void read_gal(const struct period *p, struct eph *i, uint64_t health) {
    const uint64_t *a = p->kinds[0].bits, *b = p->kinds[1].bits, *c = p->kinds[2].bits, *d = p->kinds[3].bits;
    i->gal = 1; i->sat = (p->key - GPS_KEYS) >> 10; i->iode = (p->key - GPS_KEYS) & 0x3FF;
    i->toe = a[0] >> 34 & 0x3FFF; i->m0 = (int32_t)(a[0] >> 2);
    i->e = (a[0] & 3) << 30 | a[1] >> 34; i->root_a = a[1] >> 2 & 0xFFFFFFFF;
    i->omega0 = (int32_t)(b[0] >> 16); i->i0 = (int32_t)((b[0] & 0xFFFF) << 16 | b[1] >> 48);
    i->omega = (int32_t)(b[1] >> 16); i->idot = signed_of(b[1] >> 2, 14);
    i->omega_dot = signed_of(c[0] >> 24, 24); i->delta_n = signed_of(c[0] >> 8, 16);
    i->cuc = signed_of((c[0] & 255) << 8 | c[1] >> 56, 16); i->cus = signed_of(c[1] >> 40, 16);
    i->crc = signed_of(c[1] >> 24, 16); i->crs = signed_of(c[1] >> 8, 16); i->ura = c[1] & 255;
    i->cic = signed_of(d[0] >> 26, 16); i->cis = signed_of(d[0] >> 10, 16);
    i->toc = (d[0] & 0x3FF) << 4 | d[1] >> 60;
    i->af0 = signed_of(d[1] >> 29, 31); i->af1 = signed_of(d[1] >> 8, 21); i->af2 = signed_of(d[1] >> 2, 6);
    uint64_t bits = health >> 32;
    i->tgd = signed_of(bits >> 16, 10); i->bgd = signed_of(bits >> 6, 10);
    i->health = (bits & 1) | (bits >> 2 & 3) << 1 | (bits >> 1 & 1) << 6 | (bits >> 4 & 3) << 7;
    int64_t t = WEEK_SECONDS * (int64_t)gal_week(health >> 20 & 4095) + (health & 0xFFFFF);
    i->toe_week = near(t, 60 * i->toe) / WEEK_SECONDS;
    i->sent = t - WEEK_SECONDS * (int64_t)i->toe_week;
}

static void put_ion(const struct period *p, int gal) {
    static const int which[8] = {P30, P27, P24, P24, M11, M14, M16, M16};
    uint64_t bits = p->kinds[0].bits[0];
    int64_t stamp = p->tag >> 32, second = p->tag & 0xFFFFF, v[8];
    int64_t moment = gal ? WEEK_SECONDS * (int64_t)gal_week(p->tag >> 20 & 4095) + second
                         : near(WEEK_SECONDS * (int64_t)reference + stamp, second);
    char *into = put_text(out_room(704), "> ION ");
    into = put_sat(into, gal, p->sat);
    into = put_date(put_text(into, gal ? " IFNV\n    " : " LNAV\n    "), moment);
    if (gal) {
        into = put_number(into, bits >> 30, P2);
        into = put_number(into, signed_of(bits >> 19, 11), P8);
        into = put_number(into, signed_of(bits >> 5, 14), P15);
        *into++ = '\n';
        into = LINE(bits & 31), AT(WHOLE);
    } else {
        for (int k = 0; k < 8; k++) v[k] = signed_of(bits >> (56 - 8 * k), 8);
        for (int k = 0; k < 3; k++) into = put_number(into, v[k], which[k]);
        *into++ = '\n';
        into = LINE(v[3], v[4], v[5], v[6]), AT(P24, M11, M14, M16);
        into = LINE(v[7], 0), AT(M16, WHOLE);
    }
    out_held = into - out_bytes;
}

static void put_list(const struct period *p, int ion, const char *verdict) {
    char *into = put_decimal(out_room(80), p->last);
    if (ion) {
        into = put_text(into, ion == 1 ? " ION G " : " ION E ");
        for (int at = ion == 1 ? 60 : 40; at >= 0; at -= 4) *into++ = "0123456789abcdef"[p->kinds[0].bits[0] >> at & 15];
    } else {
        int gal = p->key >= GPS_KEYS;
        uint32_t key = gal ? p->key - GPS_KEYS : p->key;
        into = put_text(into, " EPH ");
        into = put_sat(into, gal, key >> (gal ? 10 : 8));
        *into++ = ' ';
        into = put_decimal(into, gal ? key & 0x3FF : key & 255);
    }
    *into++ = ' ';
    into = put_text(into, verdict);
    *into++ = '\n';
    out_held = into - out_bytes;
}

/* the satellite's last health up to the end, or the first one after it, in the window; its bits + 1 */
static uint64_t health_at(int sat, uint64_t end) {
    const struct health *items = healths[sat].items;
    uint32_t low = 0, high = healths[sat].held;
    while (low < high) {
        uint32_t middle = (low + high) / 2;
        if (items[middle].stamp <= end) low = middle + 1;
        else high = middle;
    }
    if (low > 0 && items[low - 1].stamp + window >= end) return items[low - 1].bits + 1;
    return low < healths[sat].held && items[low].stamp <= end + window ? items[low].bits + 1 : 0;
}

static int is_again(const struct period *p, const struct eph *i, uint64_t health) {
    struct written w = {.side = p->side ? (p->side - 1) & 0x3FFF : 0, .fit = p->fit ? (p->fit - 1) & 1 : 0, .health = health,
                        .week = i->toe_week};
    memcpy(w.kinds, p->kinds, (i->gal ? 4 : 3) * sizeof(content));
    uint32_t at = written_at[p->key];
    if (!at) {
        if (written_held == written_room) written = grown(written, &written_room, sizeof *written);
        at = written_at[p->key] = ++written_held;
    } else if (!memcmp(&written[at - 1], &w, sizeof w)) return 1;
    written[at - 1] = w;
    return 0;
}

static void write_period(const struct period *p) {
    const char *verdict = "whole";
    struct eph i;
    int gal = p->key >= GPS_KEYS, ion = p->key < KEYS ? 0 : 1 + ions[p->key - KEYS].gal;
    if (ion) whole++;
    else if (p->differs) { verdict = "contradicted"; contradicted++; }
    else if (p->seen != (gal ? 15 : 7)) { verdict = "partial"; partial++; }
    else {
        uint64_t health = gal ? health_at((p->key - GPS_KEYS) >> 10, p->last) : 1;
        if (!health) { verdict = "nohealth"; nohealth++; }
        else {
            if (gal) read_gal(p, &i, health - 1);
            else read_gps(p, &i);
            if (is_again(p, &i, gal ? (health - 1) >> 32 : 0)) { verdict = "again"; again++; }
            else {
                whole++;
                if (to_rtcm) put_eph_frame(&i);
                else if (!to_list) {
                    char *into = out_room(704);
                    out_held += put_record(into, &i) - into;
                }
            }
        }
    }
    if (to_list) put_list(p, ion, verdict);
    else if (ion && !to_rtcm) put_ion(p, ion - 1);
}

static int rank(const struct period *p) { return p->key < GPS_KEYS ? 0 : p->key < KEYS ? 1 : 2 + ions[p->key - KEYS].gal; }

static int by_end(const void *a, const void *b) {
    const struct period *p = &periods[*(const int32_t *)a], *q = &periods[*(const int32_t *)b];
    if (p->last != q->last) return p->last < q->last ? -1 : 1;
    int r = rank(p) - rank(q);
    if (r) return r;
    if (rank(p) < 2) return p->key < q->key ? -1 : 1;
    return p->kinds[0].bits[0] < q->kinds[0].bits[0] ? -1 : 1;
}

/* writes the periods that end so early that no line of a time tag from `low` on belongs to them */
static void close_before(uint64_t low) {
    static int32_t *closing;
    static uint32_t room;
    uint32_t count = 0, kept = 0;
    soonest = UINT64_MAX;
    for (uint32_t i = 0; i < periods_open; i++) {
        uint32_t at = open_at[i];
        if ((uint64_t)periods[at].last + window < low) {
            if (count == room) closing = grown(closing, &room, sizeof *closing);
            closing[count++] = at;
        } else {
            if (periods[at].last < soonest) soonest = periods[at].last;
            open_at[kept++] = at;
        }
    }
    periods_open = kept;
    if (count > 1) qsort(closing, count, sizeof *closing, by_end);
    for (uint32_t i = 0; i < count; i++) {
        struct period *p = &periods[closing[i]];
        write_period(p);
        int32_t *link = &keys[p->key];
        while (*link != closing[i]) link = &periods[*link].next;
        *link = p->next;
        p->next = free_period;
        free_period = closing[i];
    }
    if (!healths_new) return;
    healths_new = 0;
    for (int sat = 1; sat < 37; sat++) {
        uint32_t from = 0;
        while (from < healths[sat].held && healths[sat].items[from].stamp + 3 * (uint64_t)window < low) from++;
        if (2 * from > healths[sat].held) {
            healths[sat].held -= from;
            memmove(healths[sat].items, healths[sat].items + from, healths[sat].held * sizeof(struct health));
        }
    }
}

/* a line of this time tag came; whether it is late */
static inline int is_late(uint32_t stamp) {
    if ((uint64_t)stamp + window < greatest) return 1;
    if (stamp > greatest) greatest = stamp;
    return 0;
}

static inline void close_risen(void) {
    if (__builtin_expect((uint64_t)greatest > soonest + 2 * (uint64_t)window, 0)) close_before(greatest - window);
}
