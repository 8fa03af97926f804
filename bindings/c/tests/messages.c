/* Compares the stateless calls with items, frames and records that an independent program made in exact arithmetic.
 *
 *   messages ITEMS RECORDS     vectors/items.txt and vectors/records.txt
 *
 * Each item is written as its frame and as its record of version 4, and that without its first line in version 3; its frame is
 * read back, made again of its payload, and is a frame no more where one of its bits is turned. Its contents as subframes or words
 * are joined to it. A file of all records is read in pieces. Status 0: all as it should be. */
#include "values.h"

#define G(name, place) {name, offsetof(nb_gps, place)}
static const field gps_fields[] = {
    G("iodc", clock.iodc), G("toc", clock.toc), G("af2", clock.af2), G("af1", clock.af1), G("af0", clock.af0),
    G("tgd", clock.tgd), G("l2_code", side.l2_code), G("ura", side.ura), G("health", side.health), G("l2p", side.l2p),
    G("iode", a.iode), G("iode", b.iode), G("crs", a.crs), G("delta_n", a.delta_n), G("m0", a.m0), G("cuc", a.cuc), G("e", a.e),
    G("cus", a.cus), G("root_a", a.root_a), G("toe", a.toe), G("cic", b.cic), G("omega0", b.omega0), G("cis", b.cis),
    G("i0", b.i0), G("crc", b.crc), G("omega", b.omega), G("omega_dot", b.omega_dot), G("idot", b.idot), G("fit", fit),
    G("toe_week", toe_week)};
#undef G
#define E(name, place) {name, offsetof(nb_gal, place)}
static const field gal_fields[] = {
    E("iodnav", w1.iodnav), E("iodnav", w2.iodnav), E("iodnav", w3.iodnav), E("iodnav", w4.iodnav), E("toe", w1.toe),
    E("m0", w1.m0), E("e", w1.e), E("root_a", w1.root_a), E("omega0", w2.omega0), E("i0", w2.i0), E("omega", w2.omega),
    E("idot", w2.idot), E("omega_dot", w3.omega_dot), E("delta_n", w3.delta_n), E("cuc", w3.cuc), E("cus", w3.cus),
    E("crc", w3.crc), E("crs", w3.crs), E("sisa", w3.sisa), E("cic", w4.cic), E("cis", w4.cis), E("toc", w4.toc),
    E("af0", w4.af0), E("af1", w4.af1), E("af2", w4.af2), E("bgd_a", health.bgd_a), E("bgd_b", health.bgd_b),
    E("hs_e5b", health.hs_e5b), E("hs_e1b", health.hs_e1b), E("dvs_e5b", health.dvs_e5b), E("dvs_e1b", health.dvs_e1b),
    E("toe_week", toe_week)};
#undef E

/* The ionospheric parameters behind the word: eight numbers of GPS or four of Galileo. */
static void parse_ionosphere(nb_item *item) {
    int32_t *gps = &item->ion.gps.alpha0;
    const char *word;
    int i;
    for (i = 0; (word = strtok(NULL, " \n")) != NULL; i++) {
        int32_t number = (int32_t)atoi(word);
        if (item->kind == NB_GPS_ION) gps[i] = number;
        if (item->kind == NB_GALILEO_ION && i == 0) item->ion.gal.ai0 = (uint32_t)number;
        if (item->kind == NB_GALILEO_ION && i == 1) item->ion.gal.ai1 = number;
        if (item->kind == NB_GALILEO_ION && i == 2) item->ion.gal.ai2 = number;
        if (item->kind == NB_GALILEO_ION && i == 3) item->ion.gal.regions = (uint32_t)number;
    }
}

static void parse(char *line, nb_item *item, int *number) {
    char *word;
    nb_sent *sent;
    memset(item, 0, sizeof *item);
    *number = atoi(line + 5);
    for (word = strtok(line, " \n"); word != NULL; word = strtok(NULL, " \n")) {
        char *value = strchr(word, '=');
        if (value == NULL) {
            parse_ionosphere(item);
            return;
        }
        *value++ = 0;
        sent = item->kind == NB_GPS ? &item->gps.sent : &item->gal.sent;
        if (strcmp(word, "sat") == 0) {
            item->kind = value[0] == 'G' ? NB_GPS : NB_GALILEO;
            *(item->kind == NB_GPS ? &item->gps.satellite : &item->gal.satellite) = (uint32_t)atoi(value + 1);
        } else if (strcmp(word, "moment") == 0) {
            item->ion.satellite = item->kind == NB_GPS ? item->gps.satellite : item->gal.satellite;
            item->gps.satellite = item->gal.satellite = 0;
            item->ion.moment = strtoull(value, NULL, 10);
            item->kind = item->kind == NB_GPS ? NB_GPS_ION : NB_GALILEO_ION;
        } else if (strcmp(word, "sent") == 0) {
            sent->is_known = strcmp(value, "unknown") != 0;
            sent->second = sent->is_known ? atoi(value) : 0;
        } else if (item->kind == NB_GPS) {
            put(&item->gps, gps_fields, sizeof gps_fields / sizeof *gps_fields, word, value);
        } else {
            put(&item->gal, gal_fields, sizeof gal_fields / sizeof *gal_fields, word, value);
        }
    }
}

static void messages(int number, const nb_item *item, const uint8_t *payload, size_t n, const uint8_t *frame, size_t size) {
    uint8_t made[NB_FRAME_MOST];
    uint32_t week = item->kind == NB_GPS ? item->gps.toe_week : item->gal.toe_week;
    nb_item read, unsent = *item;
    size_t i, used = 1;
    memset(&unsent.gps.sent, 0, sizeof unsent.gps.sent);
    memset(&unsent.gal.sent, 0, sizeof unsent.gal.sent);
    want(nb_message_write(item, made, sizeof made, &used) == NB_OK && used == size && memcmp(made, frame, size) == 0, number, "frame");
    want(nb_frame_make(payload, n, made, sizeof made) == size && memcmp(made, frame, size) == 0, number, "frame of payload");
    want(nb_is_frame(frame, size), number, "is a frame");
    for (i = 0; i < 8 * size; i++) {
        memcpy(made, frame, size);
        made[i / 8] ^= (uint8_t)(1 << i % 8);
        if (i / 8 != 1 || i % 8 < 2) want(!nb_is_frame(made, size), number, "a bit turned");
    }
    memset(&read, 0, sizeof read);
    want(nb_message_read(payload, n, week, &read) == NB_OK && memcmp(&read, &unsent, sizeof read) == 0, number, "read");
    memset(&read, 0, sizeof read);
    want(nb_frame_read(frame, size, week, &read) == NB_OK && memcmp(&read, &unsent, sizeof read) == 0, number, "read of a frame");
    want(nb_frame_read(frame, size - 1, week, &read) == NB_NO_FRAME && nb_frame_read(frame, size, 8192, &read) == NB_NO_WEEK, number,
         "no frame, no week");
    want(nb_message_read(payload, n - 1, week, &read) == NB_SHORT, number, "short");
    want(nb_message_read(payload, n, 1023, &read) == NB_NO_WEEK, number, "week");
    memset(made, 0xAA, sizeof made);
    want(nb_message_write(item, made, 10, &used) == NB_OK && used == size && memcmp(made, frame, 10) == 0 && made[10] == 0xAA, number,
         "room");
}

/* The record of the item in the file of records, up to the line that names the next. */
static size_t record_of(FILE *from, int number, uint8_t *into, size_t room, size_t *title, size_t *last) {
    char line[200], head[32];
    size_t used = 0;
    int is_there = 0;
    sprintf(head, "item %d\n", number);
    rewind(from);
    *title = *last = 0;
    while (fgets(line, sizeof line, from) != NULL) {
        if (is_there && strncmp(line, "item ", 5) == 0) break;
        if (is_there && used + strlen(line) <= room) {
            memcpy(into + used, line, strlen(line));
            used += *last = strlen(line);
            if (*title == 0) *title = used;
        }
        if (strcmp(line, head) == 0) is_there = 1;
    }
    return used;
}

static void records(int number, const nb_item *item, FILE *from) {
    uint8_t expected[2048], text[2048];
    nb_item read;
    size_t title, last, used = 1, size = record_of(from, number, expected, sizeof expected, &title, &last);
    want(nb_record_write(item, 4, text, sizeof text, &used) == NB_OK && used == size && memcmp(text, expected, size) == 0, number,
         "record of version 4");
    if (item->kind > NB_GALILEO) title = size;
    want(nb_record_write(item, 3, text, sizeof text, &used) == NB_OK && used == size - title
             && memcmp(text, expected + title, size - title) == 0,
         number, "record of version 3");
    memset(text, 0xAA, sizeof text);
    want(nb_record_write(item, 4, text, 100, &used) == NB_OK && used == size && memcmp(text, expected, 100) == 0 && text[100] == 0xAA,
         number, "room for a record");
    want(nb_record_write(item, 2, text, sizeof text, &used) == NB_NO_VERSION && used == 0, number, "version 2");
    memset(&read, 0, sizeof read);
    want(nb_record_read(expected, size, 4, &read) == NB_OK && memcmp(&read, item, sizeof read) == 0, number, "read of version 4");
    if (item->kind <= NB_GALILEO) {
        memset(&read, 0, sizeof read);
        want(nb_record_read(expected + title, size - title, 3, &read) == NB_OK && memcmp(&read, item, sizeof read) == 0, number,
             "read of version 3");
    }
    memset(&read, 0xAA, sizeof read);
    want(nb_record_read(expected, size - last, 4, &read) == NB_RECORD_SHORT && read.kind == 0xAAAAAAAA, number,
         "a record without its last line");
    want(nb_record_read(expected, size, 2, &read) == NB_NO_VERSION, number, "read of version 2");
}

static void none(int number, const nb_item *item) {
    nb_item other = *item;
    uint8_t room[NB_FRAME_MOST];
    size_t used = 1;
    if (item->kind > NB_GALILEO)
        want(nb_message_write(item, room, sizeof room, &used) == NB_NO_MESSAGE && used == 0, number, "no message");
    other.kind = 5;
    used = 1;
    want(nb_message_write(&other, room, sizeof room, &used) == NB_NO_ITEM && used == 0, number, "kind 5");
    other = *item;
    other.gps.clock.af0 = 2097152;
    other.gal.w3.sisa = 126;
    other.ion.moment = 604799;
    used = 1;
    want(nb_message_write(&other, room, sizeof room, &used) == NB_NO_ITEM && used == 0, number, "a field out of its range");
    used = 1;
    want(nb_record_write(&other, 4, room, sizeof room, &used) == NB_NO_ITEM && used == 0, number, "no record");
    other = *item;
    other.gps.a.iode ^= 1;
    other.gal.w2.iodnav ^= 1;
    if (item->kind <= NB_GALILEO)
        want(nb_record_write(&other, 4, room, sizeof room, &used) == NB_NO_ITEM && used == 0, number, "two issues");
}

static int joined;

/* The contents of an ephemeris, sent at the time that it says, are joined to it where its toe is the nearest to that time. */
static void joins(int number, const nb_item *of) {
    nb_item item = *of, read, untouched;
    nb_subframe subframes[3];
    nb_word words[5];
    uint32_t i, week, second;
    int64_t moment, toe;
    const nb_sent *sent = item.kind == NB_GPS ? &item.gps.sent : &item.gal.sent;
    if (item.kind > NB_GALILEO || !sent->is_known) return;
    moment = 604800 * (int64_t)(item.kind == NB_GPS ? item.gps.toe_week : item.gal.toe_week) + sent->second;
    toe = 604800 * (int64_t)(item.kind == NB_GPS ? item.gps.toe_week : item.gal.toe_week)
        + (item.kind == NB_GPS ? 16 * item.gps.a.toe : 60 * item.gal.w1.toe);
    if (toe - moment <= -302400 || toe - moment > 302400) return;
    week = (uint32_t)(moment / 604800);
    second = (uint32_t)(moment % 604800);
    memset(subframes, 0, sizeof subframes);
    memset(words, 0, sizeof words);
    for (i = 0; i < 3; i++) subframes[i].number = i + 1;
    for (i = 0; i < 5; i++) words[i].number = i + 1;
    item.gps.clock.iodc = (item.gps.clock.iodc & 0x300) | item.gps.a.iode;
    subframes[0].wn = week % 1024;
    subframes[0].second = words[4].second = second;
    subframes[0].clock = item.gps.clock;
    subframes[0].side = item.gps.side;
    subframes[1].a = item.gps.a;
    subframes[1].fit = item.gps.fit;
    subframes[2].b = item.gps.b;
    words[0].w1 = item.gal.w1;
    words[1].w2 = item.gal.w2;
    words[2].w3 = item.gal.w3;
    words[3].w4 = item.gal.w4;
    words[4].wn = (week - 1024) % 4096;
    words[4].health = item.gal.health;
    memset(&read, 0, sizeof read);
    memset(&untouched, 0xAA, sizeof untouched);
    joined++;
    if (item.kind == NB_GPS) {
        want(nb_subframes_join(subframes, item.gps.satellite, week, &read) == NB_OK && memcmp(&read, &item, sizeof read) == 0, number,
             "subframes joined");
        want(nb_subframes_join(subframes, item.gps.satellite, week + 511, &read) == NB_OK && read.gps.toe_week == item.gps.toe_week, number,
             "subframes of another reference week");
        subframes[0].clock.iodc ^= 1;
    } else {
        want(nb_words_join(words, item.gal.satellite, week, &read) == NB_OK && memcmp(&read, &item, sizeof read) == 0, number,
             "words joined");
        words[2].w3.iodnav ^= 1;
    }
    read = untouched;
    want((item.kind == NB_GPS ? nb_subframes_join(subframes, 1, week, &read) : nb_words_join(words, 1, week, &read)) == NB_NO_ITEM, number,
         "two issues");
    subframes[0].clock.iodc ^= 1;
    words[2].w3.iodnav ^= 1;
    subframes[1].number = words[3].number = 3;
    want(nb_subframes_join(subframes, 1, week, &read) == NB_NO_ITEM && nb_words_join(words, 1, week, &read) == NB_NO_ITEM, number,
         "subframe 3 twice");
    want(nb_subframes_join(subframes, 33, week, &read) == NB_NO_SATELLITE && nb_words_join(words, 37, week, &read) == NB_NO_SATELLITE,
         number, "no satellite to join");
    want(nb_subframes_join(subframes, 1, 1023, &read) == NB_NO_WEEK && nb_words_join(words, 1, 8192, &read) == NB_NO_WEEK, number,
         "no week to join");
    want(memcmp(&read, &untouched, sizeof read) == 0, number, "nothing joined");
}

/* A file of these records, of which pieces of this size come. */
static void files(const uint8_t *text, size_t n, size_t piece, uint32_t version, int count) {
    size_t at = 0, come = 0, size;
    int found = 0;
    nb_item item;
    while (at == 0 && come < n) {
        come = come + piece < n ? come + piece : n;
        at = nb_header_size(text, come);
    }
    want(at > 0 && nb_header_size(text, at) == at && nb_header_size(text, at - 1) == 0, (int)piece, "header of a file");
    for (; come <= n; come += piece) {
        const bool is_end = come + piece > n;
        if (is_end) come = n;
        while ((size = nb_record_size(text + at, come - at, version, is_end)) > 0) {
            want(nb_record_read(text + at, size, version, &item) == NB_OK, (int)piece, "record of a file");
            want(size <= come - at && (at + size == n || nb_record_size(text + at, size, version, false) == 0), (int)piece, "its end");
            at += size;
            found++;
        }
        if (is_end) break;
    }
    want(at == n && found == count, (int)piece, "records of a file");
}

int main(int argc, char **argv) {
    static char line[4096];
    FILE *items = argc == 3 ? fopen(argv[1], "r") : NULL, *texts = argc == 3 ? fopen(argv[2], "r") : NULL;
    nb_item item;
    int32_t raw = 7;
    uint32_t unsigned_raw = 7;
    uint8_t payload[NB_FRAME_MOST], frame[NB_FRAME_MOST];
    static uint8_t long_payload[1024];
    size_t n = 0, size;
    static uint8_t all[2][1 << 20];
    size_t sizes[2], used;
    int number = 0, count = 0, frames = 0, counts[2] = {0, 0}, i;
    nb_header header;
    if (items == NULL || texts == NULL) {
        fprintf(stderr, "usage: messages ITEMS RECORDS\n");
        return 2;
    }
    want(nb_version() == NB_VERSION, -1, "version");
    want(nb_message_read(payload, 0, 2295, &item) == NB_NO_NUMBER, -1, "no bytes");
    want(nb_frame_make(long_payload, 1024, frame, sizeof frame) == 0, -1, "1,024 bytes");
    want(nb_frame_make(long_payload, 1023, frame, sizeof frame) == 1029 && nb_is_frame(frame, 1029), -1, "1,023 bytes");
    want(nb_message_read(NULL, 0, 2295, &item) == NB_NO_NUMBER && !nb_is_frame(NULL, 0), -1, "no pointer");
    memcpy(header.date, "20240101 000000 UTC", sizeof header.date);
    header.leap = 18;
    for (i = 0; i < 2; i++)
        want(nb_header_write(&header, 4 - (uint32_t)i, all[i], sizeof all[i], &sizes[i]) == NB_OK && sizes[i] == 308
                 && memcmp(all[i], i == 0 ? "     4.01 " : "     3.05 ", 10) == 0
                 && memcmp(all[i] + sizes[i] - 14, "END OF HEADER\n", 14) == 0,
             i, "header");
    header.leap = 100;
    want(nb_header_write(&header, 4, frame, sizeof frame, &used) == NB_NO_HEADER && used == 0, -1, "100 leap seconds");
    header.leap = 9;
    want(nb_header_write(&header, 5, frame, sizeof frame, &used) == NB_NO_VERSION && used == 0, -1, "header of version 5");
    header.date[3] = 10;
    want(nb_header_write(&header, 4, frame, sizeof frame, &used) == NB_NO_HEADER && used == 0, -1, "a date of two lines");
    want(nb_record_size(all[0], sizes[0], 2, true) == 0 && nb_record_size(NULL, 0, 4, true) == 0 && nb_header_size(NULL, 0) == 0, -1,
         "nothing to find");
    want(nb_week_of_unix(1704067200) == 2295 && nb_week_of_unix(1704067199 - 86400) == 2294 && nb_week_of_unix(315964800 + 604800) == 1
             && nb_week_of_unix(0) == 0 && nb_week_of_unix(UINT64_MAX) == 0,
         -1, "weeks");
    want(!nb_raw_signed(NAN, 31, 32, &raw) && !nb_raw_signed(2147483648.0, 0, 32, &raw) && raw == 7
             && nb_raw_signed(-2147483648.0, 0, 32, &raw) && raw == INT32_MIN,
         -1, "signed fields");
    want(!nb_raw_unsigned(-1, 0, 8, &unsigned_raw) && !nb_raw_unsigned(256, 0, 8, &unsigned_raw) && unsigned_raw == 7
             && nb_raw_unsigned(255, 0, 8, &unsigned_raw) && unsigned_raw == 255,
         -1, "unsigned fields");
    while (fgets(line, sizeof line, items) != NULL) {
        if (strncmp(line, "item=", 5) == 0) {
            parse(line, &item, &number);
            records(number, &item, texts);
            none(number, &item);
            joins(number, &item);
            for (i = 0; i < 2; i++)
                if (nb_record_write(&item, 4 - (uint32_t)i, all[i] + sizes[i], sizeof all[i] - sizes[i], &used) == NB_OK && used > 0)
                    sizes[i] += used, counts[i]++;
            count++;
        }
        if (strncmp(line, "  payload ", 10) == 0) n = bytes_of(line + 10, payload);
        if (strncmp(line, "  frame ", 8) == 0) {
            size = bytes_of(line + 8, frame);
            messages(number, &item, payload, n, frame, size);
            frames++;
        }
    }
    fclose(items);
    fclose(texts);
    for (i = 0; i < 2; i++)
        for (n = 1; n < 1000; n = n * 3 + 1) files(all[i], sizes[i], n, 4 - (uint32_t)i, counts[i]);
    printf("messages: %d items, %d frames, %d joined, %d wrong\n", count, frames, joined, wrong);
    return wrong != 0 || count == 0 || frames == 0 || joined == 0;
}
