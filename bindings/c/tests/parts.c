/* Compares subframes and pages with those that an independent program made in exact arithmetic.
 *
 *   parts SUBFRAMES WORDS      vectors/lnav_subframes.txt and vectors/inav_words.txt
 *
 * Each is written and read; no subframe and no page is read where one of its bits is turned that counts. Status 0: all as it
 * should be. */
#include "values.h"

#define S(name, place) {name, offsetof(nb_subframe, place)}
static const field subframe_fields[] = {
    S("wn", wn), S("second", second), S("iodc", clock.iodc), S("toc", clock.toc), S("af2", clock.af2), S("af1", clock.af1),
    S("af0", clock.af0), S("tgd", clock.tgd), S("l2_code", side.l2_code), S("ura", side.ura), S("health", side.health),
    S("l2p", side.l2p), S("crs", a.crs), S("delta_n", a.delta_n), S("m0", a.m0), S("cuc", a.cuc), S("e", a.e), S("cus", a.cus),
    S("root_a", a.root_a), S("toe", a.toe), S("fit", fit), S("cic", b.cic), S("omega0", b.omega0), S("cis", b.cis), S("i0", b.i0),
    S("crc", b.crc), S("omega", b.omega), S("omega_dot", b.omega_dot), S("idot", b.idot), S("alpha0", ion.alpha0),
    S("alpha1", ion.alpha1), S("alpha2", ion.alpha2), S("alpha3", ion.alpha3), S("beta0", ion.beta0), S("beta1", ion.beta1),
    S("beta2", ion.beta2), S("beta3", ion.beta3)};
#undef S
#define W(name, place) {name, offsetof(nb_word, place)}
static const field word_fields[] = {
    W("wn", wn), W("second", second), W("toe", w1.toe), W("m0", w1.m0), W("e", w1.e), W("root_a", w1.root_a),
    W("omega0", w2.omega0), W("i0", w2.i0), W("omega", w2.omega), W("idot", w2.idot), W("omega_dot", w3.omega_dot),
    W("delta_n", w3.delta_n), W("cuc", w3.cuc), W("cus", w3.cus), W("crc", w3.crc), W("crs", w3.crs), W("sisa", w3.sisa),
    W("cic", w4.cic), W("cis", w4.cis), W("toc", w4.toc), W("af0", w4.af0), W("af1", w4.af1), W("af2", w4.af2),
    W("bgd_a", health.bgd_a), W("bgd_b", health.bgd_b), W("hs_e5b", health.hs_e5b), W("hs_e1b", health.hs_e1b),
    W("dvs_e5b", health.dvs_e5b), W("dvs_e1b", health.dvs_e1b), W("ai0", ion.ai0), W("ai1", ion.ai1), W("ai2", ion.ai2),
    W("regions", ion.regions)};
#undef W

static void subframe(int line, const nb_subframe_bits *bits, const nb_subframe *value, uint32_t count) {
    nb_subframe read, untouched;
    nb_subframe_bits made;
    size_t i;
    memset(&read, 0, sizeof read);
    want(nb_subframe_read(bits, 7, &read) == NB_OK && memcmp(&read, value, sizeof read) == 0, line, "read");
    memset(&made, 0xAA, sizeof made);
    want(nb_subframe_write(value, count, &made) == NB_OK && memcmp(&made, bits, sizeof made) == 0, line, "written");
    for (i = 0; i < sizeof made; i++) made.bytes[i] ^= 0xFF;
    memset(&read, 0, sizeof read);
    want(nb_subframe_read(&made, 7, &read) == NB_OK && memcmp(&read, value, sizeof read) == 0, line, "inverted");
    memset(&untouched, 0xAA, sizeof untouched);
    for (i = 0; i < 300; i++) {
        uint32_t answer, word = i < 8 ? 0 : 1 + (uint32_t)i / 30;
        made = *bits;
        made.bytes[i / 8] ^= (uint8_t)(0x80 >> i % 8);
        read = untouched;
        answer = nb_subframe_read(&made, 7, &read);
        want(nb_parity_word(answer) == word && (word != 0 || answer == NB_SUBFRAME_PREAMBLE)
                 && memcmp(&read, &untouched, sizeof read) == 0,
             line, "a bit turned");
    }
    want(nb_subframe_read(bits, 0, &read) == NB_NO_SATELLITE && nb_subframe_read(bits, 33, &read) == NB_NO_SATELLITE
             && nb_subframe_read(bits, 256 + 7, &read) == NB_NO_SATELLITE,
         line, "no satellite");
    want(nb_subframe_write(value, 100800, &made) == NB_NO_TOW_COUNT, line, "no count");
    read = *value;
    read.number = 5;
    want(nb_subframe_write(&read, count, &made) == NB_NO_ITEM, line, "number 5");
    read = *value;
    read.clock.toc = read.a.toe = 37800;
    read.b.idot = 8192;
    read.ion.beta3 = 128;
    want(nb_subframe_write(&read, count, &made) == NB_NO_ITEM, line, "a field out of its range");
}

static void word(int line, const nb_page_bits *page, const nb_word *value, uint32_t satellite) {
    nb_word read, untouched;
    nb_page_bits made;
    size_t i;
    memset(&read, 0, sizeof read);
    want(nb_page_read(page, satellite, &read) == NB_OK && memcmp(&read, value, sizeof read) == 0, line, "page read");
    memset(&made, 0xAA, sizeof made);
    want(nb_page_write(value, satellite, &made) == NB_OK && memcmp(&made, page, sizeof made) == 0, line, "page written");
    memset(&untouched, 0xAA, sizeof untouched);
    for (i = 0; i < 240; i++) {
        uint32_t answer, expected = NB_PAGE_CRC;
        size_t at = i % 120;
        made = *page;
        if (i < 120) made.even[at / 8] ^= (uint8_t)(0x80 >> at % 8);
        else made.odd[at / 8] ^= (uint8_t)(0x80 >> at % 8);
        if (at == 0) expected = NB_PAGE_NO_PAIR;
        if (at == 1) expected = NB_PAGE_ALERT;
        if (at >= (i < 120 ? 114U : 106U)) expected = NB_OK;
        read = untouched;
        answer = nb_page_read(&made, satellite, &read);
        want(answer == expected, line, "a bit of a page turned");
        if (expected != NB_OK) want(memcmp(&read, &untouched, sizeof read) == 0, line, "nothing put");
    }
    memcpy(made.even, page->odd, 15);
    memcpy(made.odd, page->even, 15);
    want(nb_page_read(&made, satellite, &read) == NB_PAGE_NO_PAIR, line, "parts in the other order");
    want(nb_page_read(page, 0, &read) == NB_NO_SATELLITE && nb_page_read(page, 37, &read) == NB_NO_SATELLITE, line, "no satellite");
    want(nb_page_write(value, 37, &made) == NB_NO_SATELLITE, line, "no satellite to write");
    if (value->number == 4)
        want(nb_page_read(page, satellite % 36 + 1, &read) == NB_WORD_SATELLITE, line, "another satellite");
    read = *value;
    read.number = 6;
    want(nb_page_write(&read, satellite, &made) == NB_NO_ITEM, line, "word 6");
    read = *value;
    read.w1.toe = read.w4.toc = 10080;
    read.w2.idot = -8193;
    read.w3.sisa = 126;
    read.wn = 4096;
    want(nb_page_write(&read, satellite, &made) == NB_NO_ITEM, line, "a field out of its range");
}

static void numbers(char *words, void *into, const field *fields, size_t count, const char *issue, const size_t *issues,
                    size_t n_issues, uint32_t *other) {
    char *at;
    size_t i;
    for (at = strtok(words, " \n"); at != NULL; at = strtok(NULL, " \n")) {
        char *value = strchr(at, '=');
        uint32_t bits;
        if (value == NULL) continue;
        *value++ = 0;
        if (put(into, fields, count, at, value)) continue;
        bits = (uint32_t)strtoul(value, NULL, 10);
        if (strcmp(at, issue) == 0)
            for (i = 0; i < n_issues; i++) memcpy((char *)into + issues[i], &bits, sizeof bits);
        else
            *other = bits;
    }
}

static int subframes(FILE *from) {
    static char line[1024];
    int number = 0, count = 0;
    while (fgets(line, sizeof line, from) != NULL) {
        nb_subframe value;
        nb_subframe_bits bits;
        uint32_t tow_count = 0;
        size_t issue = 0;
        number++;
        if (line[0] == '#' || bytes_of(line, bits.bytes) != 38) continue;
        memset(&value, 0, sizeof value);
        if (strstr(line, " clock ")) value.number = 1;
        if (strstr(line, " orbit_a ")) value.number = 2, issue = offsetof(nb_subframe, a.iode);
        if (strstr(line, " orbit_b ")) value.number = 3, issue = offsetof(nb_subframe, b.iode);
        if (strstr(line, " ionosphere ")) value.number = 4;
        if (value.number == 0) continue;
        numbers(line, &value, subframe_fields, sizeof subframe_fields / sizeof *subframe_fields, "iode", &issue, 1, &tow_count);
        subframe(number, &bits, &value, tow_count);
        count++;
    }
    return count;
}

static int pages(FILE *from) {
    static const size_t issues[] = {0, offsetof(nb_word, w1.iodnav), offsetof(nb_word, w2.iodnav), offsetof(nb_word, w3.iodnav),
                                    offsetof(nb_word, w4.iodnav), 0};
    static char line[1024];
    int number = 0, count = 0;
    while (fgets(line, sizeof line, from) != NULL) {
        nb_word value;
        nb_page_bits page;
        uint32_t satellite = 11;
        char *type = strstr(line, " word");
        number++;
        if (line[0] == '#' || type == NULL) continue;
        if (bytes_of(line + 33, page.even) != 15 || bytes_of(line + 64, page.odd) != 15) continue;
        memset(&value, 0, sizeof value);
        value.number = (uint32_t)atoi(type + 5);
        numbers(line, &value, word_fields, sizeof word_fields / sizeof *word_fields, "iodnav", &issues[value.number], 1, &satellite);
        word(number, &page, &value, satellite);
        count++;
    }
    return count;
}

int main(int argc, char **argv) {
    FILE *of_subframes = argc == 3 ? fopen(argv[1], "r") : NULL, *of_words = argc == 3 ? fopen(argv[2], "r") : NULL;
    int subframe_count, page_count;
    if (of_subframes == NULL || of_words == NULL) {
        fprintf(stderr, "usage: parts SUBFRAMES WORDS\n");
        return 2;
    }
    subframe_count = subframes(of_subframes);
    page_count = pages(of_words);
    fclose(of_subframes);
    fclose(of_words);
    printf("parts: %d subframes, %d pages, %d wrong\n", subframe_count, page_count, wrong);
    return wrong != 0 || subframe_count == 0 || page_count == 0;
}
