/* The parts of pages that an independent program made, taken in many orders: each page is given once, with its second part, as it
 * was. A part that comes again gives nothing, nor does one whose partner is too old; what is no part is refused, and so is each
 * request for memory, after which nothing is changed.
 *
 *   pairs WORDS      vectors/inav_words.txt
 */
#include "refused.h"
#include "values.h"

enum { MOST = 36 };

static nb_page_bits pages[MOST];
static uint32_t n_pages;

/* The part with this number, of the page with half of it: when it was heard, and its bits. */
static uint32_t stamp_of(uint32_t part) {
    return 1000 + part / 2 * 7 % 50 + part % 2;
}

static const uint8_t *bits_of(uint32_t part) {
    return part % 2 ? pages[part / 2].odd : pages[part / 2].even;
}

static uint32_t take(nb_pages *it, uint32_t part, uint32_t signal) {
    return nb_pages_take(it, bits_of(part), stamp_of(part), part / 2 + 1, signal);
}

/* What was just taken gives this page, and no other; or none. */
static int gives(nb_pages *it, uint32_t part, int is_page) {
    static const uint8_t filled[sizeof(nb_joined)] = {0xA5};
    nb_joined joined;
    memset(&joined, 0, sizeof joined);
    if (is_page && (nb_pages_next(it, &joined) != 1 || joined.stamp != stamp_of(part | 1) ||
                    memcmp(&joined.page, &pages[part / 2], sizeof joined.page) != 0))
        return 0;
    memcpy(&joined, filled, sizeof joined);
    return nb_pages_next(it, &joined) == 0 && memcmp(&joined, filled, sizeof joined) == 0;
}

/* All parts in an order, each twice; between two calls all is moved. */
static int in_order(uint32_t step) {
    static nb_pages here, there;
    uint8_t seen[2 * MOST] = {0};
    uint32_t i, parts = 2 * n_pages;
    int is_right = 1;
    memset(&here, 0x5A, sizeof here);
    nb_pages_init(&here, 60);
    for (i = 0; i < parts; i++) {
        uint32_t part = i * step % parts;
        is_right = is_right && take(&here, part, NB_E1B) == NB_OK && gives(&here, part, seen[part ^ 1]);
        memcpy(&there, &here, sizeof here);
        is_right = is_right && take(&there, part, NB_E1B) == NB_OK && gives(&there, part, 0);
        memcpy(&here, &there, sizeof here);
        seen[part] = 1;
    }
    nb_pages_close(&here);
    return is_right;
}

static int is_prime_to(uint32_t a, uint32_t b) {
    while (b != 0) {
        uint32_t rest = a % b;
        a = b;
        b = rest;
    }
    return a == 1;
}

/* What gives no page, or is no part. */
static void refuses(void) {
    static nb_pages it;
    uint8_t alert[15];
    nb_pages_init(&it, 0);
    want(take(&it, 0, NB_E1B) == NB_OK && gives(&it, 0, 0), 0, "an even part");
    want(take(&it, 1, NB_E5B) == NB_OK && gives(&it, 1, 0), 0, "its odd part on another signal");
    want(nb_pages_take(&it, bits_of(1), stamp_of(1), 2, NB_E1B) == NB_OK && gives(&it, 1, 0), 0, "of another satellite");
    want(nb_pages_take(&it, bits_of(1), stamp_of(0), 1, NB_E1B) == NB_OK && gives(&it, 1, 0), 0, "at another second");
    want(nb_pages_take(&it, bits_of(3), stamp_of(1), 1, NB_E1B) == NB_OK && gives(&it, 1, 0), 0, "of another page");
    want(take(&it, 0, 0) == NB_NO_SIGNAL && take(&it, 0, 3) == NB_NO_SIGNAL, 0, "no signal");
    want(nb_pages_take(&it, bits_of(0), 0, 0, 1) == NB_NO_SATELLITE && nb_pages_take(&it, bits_of(0), 0, 37, 0) == NB_NO_SATELLITE, 0,
         "no satellite");
    memcpy(alert, bits_of(1), 15);
    alert[0] |= 0x40;
    want(nb_pages_take(&it, alert, stamp_of(1), 1, NB_E1B) == NB_PAGE_ALERT, 0, "an alert page");
    want(take(&it, 1, NB_E1B) == NB_OK && gives(&it, 1, 1), 0, "the odd part at last");
    want(take(&it, 3, NB_E1B) == NB_OK && gives(&it, 3, 0), 0, "an odd part that waits");
    want(nb_pages_take(&it, bits_of(0), stamp_of(3) + 62, 30, NB_E1B) == NB_OK, 0, "a part 62 seconds behind it");
    want(take(&it, 2, NB_E1B) == NB_OK && gives(&it, 2, 0), 0, "its even part, too late");
    nb_pages_close(&it);
    want(take(&it, 1, NB_E1B) == NB_OK && gives(&it, 1, 0), 0, "nothing is kept behind the end");
    nb_pages_close(&it);
}

/* Each request for memory refused, and the same part once more. */
static long refused(void) {
    static nb_pages it;
    uint32_t part;
    long requests = 0;
    refuse_from(-1);
    nb_pages_init(&it, 14400);
    for (part = 0; part < 2 * n_pages; part++) {
        long asked, from = 0;
        for (;; from++) {
            asked = requests_asked();
            refuse_next(from);
            if (take(&it, part, NB_E5B) == NB_OK) break;
            want(requests_asked() > asked + from, (int)part, "a part is refused for want of memory alone");
        }
        requests += from;
        want(gives(&it, part, part % 2), (int)part, "the page, once there is memory");
    }
    nb_pages_close(&it);
    want(requests_held() == 0, 0, "all memory is given back");
    return requests;
}

int main(int argc, char **argv) {
    char line[512];
    uint32_t step, orders = 0;
    FILE *from = argc == 2 ? fopen(argv[1], "r") : NULL;
    long requests;
    if (from == NULL) {
        fprintf(stderr, "usage: pairs WORDS\n");
        return 2;
    }
    refuse_from(-1);
    while (n_pages < MOST && fgets(line, sizeof line, from) != NULL)
        if (line[0] != '#' && bytes_of(line + 33, pages[n_pages].even) == 15 && bytes_of(line + 64, pages[n_pages].odd) == 15)
            n_pages++;
    fclose(from);
    want(n_pages > 2 && nb_pages_size() <= NB_PAGES_MOST, 0, "pages, and the header's size");
    for (step = 1; wrong == 0 && step < 2 * n_pages; step++)
        if (is_prime_to(step, 2 * n_pages)) {
            orders++;
            want(in_order(step), (int)step, "an order of parts");
        }
    if (wrong == 0) refuses();
    requests = wrong == 0 ? refused() : 0;
    printf("pairs: %lu pages in %lu orders, %ld requests refused, %lu bytes, %d wrong\n", (unsigned long)n_pages, (unsigned long)orders,
           requests, (unsigned long)nb_pages_size(), wrong);
    return wrong != 0;
}
