/* A conversion whose input is pushed, in pieces of every size from 1 to 80 and of some larger ones, with rooms of many sizes, in
 * four threads, each with the 256 KB of stack that docs/LIBRARY.md asks for: the output, the report and the status are what
 * nb_convert gives of the whole. Then the same with each request for memory refused from there on: the answer is NB_NO_MEMORY,
 * each further call's too, what was taken is a prefix, and nothing leaks. Of a stream with a long report no more memory is wanted than
 * for what was not taken. A long capture is followed by bytes up to 2^32: then each call's answer is NB_TOO_LONG, also that of
 * nb_push_finish().
 *
 *   push INPUT WORD..    the words name a job whose input can be pushed
 */
#include <pthread.h>
#include <stdio.h>
#include <stdlib.h>
#include <string.h>

#include "navbridge.h"
#include "refused.h"
#include "wants.h"

enum { MOST = 1 << 20, WORDS = 16 };

static uint8_t input[MOST], expected[MOST], expected_report[MOST];
static size_t n_input, n_expected, n_expected_report, n_words;
static nb_bytes words[WORDS];

typedef struct taken {
    uint8_t output[MOST], report[MOST];
    size_t n_output, n_report;
} taken;

/* Takes what waits, by rooms of a size; whether it stays within what is expected. */
static int takes(nb_push_state *it, taken *to, size_t room) {
    size_t n;
    while ((n = nb_push_take(it, to->output + to->n_output, room)) > 0)
        if ((to->n_output += n) > n_expected || n > room) return 0;
    while ((n = nb_push_take_report(it, to->report + to->n_report, room)) > 0)
        if ((to->n_report += n) > n_expected_report || n > room) return 0;
    return memcmp(to->output, expected, to->n_output) == 0 && memcmp(to->report, expected_report, to->n_report) == 0;
}

/* The whole input in pieces of a size; between two calls the conversion is moved. The first answer that is not NB_OK, or 1000 where
 * something that was taken is wrong. */
static uint32_t pushed(size_t piece, size_t room, taken *to) {
    nb_push_state *it = (nb_push_state *)malloc(nb_push_size()), *moved;
    size_t at = 0, n;
    uint32_t status;
    to->n_output = to->n_report = 0;
    if (it == NULL) return 1000;
    memset(it, 0x5A, nb_push_size());
    status = nb_push_open(it, words, n_words);
    while (status == NB_OK) {
        n = n_input - at < piece ? n_input - at : piece;
        status = n > 0 ? nb_push(it, input + at, n) : nb_push_finish(it);
        at += n;
        if (!takes(it, to, room)) status = 1000;
        moved = (nb_push_state *)malloc(nb_push_size());
        if (moved == NULL) break;
        memcpy(moved, it, nb_push_size());
        free(it);
        it = moved;
        if (n == 0) break;
    }
    if (status != NB_OK && (nb_push(it, input, 1) != status || nb_push_finish(it) != status)) status = 1000;
    if (status == NB_OK && (nb_push(it, input, 1) != NB_ENDED || nb_push_finish(it) != NB_ENDED)) status = 1000;
    nb_push_close(it);
    if (nb_push(it, input, 1) != NB_CLOSED || nb_push_take(it, to->output, MOST) != 0) status = 1000;
    nb_push_close(it);
    free(it);
    return status;
}

static int is_whole(const taken *it) {
    return it->n_output == n_expected && it->n_report == n_expected_report && memcmp(it->output, expected, n_expected) == 0 &&
           memcmp(it->report, expected_report, n_expected_report) == 0;
}

static void *sizes(void *wrong_here) {
    static const size_t large[] = {255, 1029, 4095, 4096, 4097, 65536, MOST};
    taken *to = (taken *)malloc(sizeof *to);
    size_t i;
    for (i = 1; to != NULL && i <= 87; i++)
        if (pushed(i <= 80 ? i : large[i - 81], i % 3 == 0 ? 1 : i % 3 == 1 ? 100 : 4096, to) != NB_OK || !is_whole(to)) ++*(int *)wrong_here;
    if (to == NULL) ++*(int *)wrong_here;
    free(to);
    return NULL;
}

/* With each request for memory refused from there on. */
static long refused(void) {
    taken *to = (taken *)malloc(sizeof *to);
    long from = 0;
    for (; to != NULL; from++) {
        uint32_t status;
        refuse_from(from);
        status = pushed(1000, 4096, to);
        want(requests_held() == 0, (int)from, "all memory is given back");
        if (requests_asked() <= from) {
            want(status == NB_OK && is_whole(to), (int)from, "the whole, once there is enough");
            break;
        }
        want(status == NB_NO_MEMORY, (int)from, "no memory");
    }
    free(to);
    return from;
}

/* Words that open nothing. */
static void opens_nothing(void) {
    static nb_push_state it;
    static const uint8_t no_text[1] = {0xFF};
    nb_bytes other[2];
    other[0].at = no_text;
    other[0].size = 1;
    want(nb_push_open(&it, other, 1) == NB_NO_TEXT && nb_push(&it, input, 1) == NB_NO_TEXT, 0, "a word that is no text");
    nb_push_close(&it);
    want(nb_push_open(&it, words, 0) == NB_NO_JOB && nb_push_finish(&it) == NB_NO_JOB, 0, "no words");
    nb_push_close(&it);
    other[0].at = (const uint8_t *)"--from=rinex";
    other[0].size = 12;
    other[1].at = (const uint8_t *)"--to=list";
    other[1].size = 9;
    want(nb_push_open(&it, other, 2) == NB_NOT_PUSHED && nb_push_take(&it, expected, 1) == 0, 0, "a job that is not pushed");
    nb_push_close(&it);
}

/* A first line that is rejected, where no memory is left: it is not that which is missing. */
static void rejected(void) {
    static nb_push_state it;
    static const uint8_t line[] = "NAVCAP 3\n";
    uint32_t status = nb_push_open(&it, words, n_words);
    refuse_from(0);
    if (status == NB_OK) status = nb_push(&it, line, sizeof line - 1);
    want(status == NB_NOT_THIS_FORM && nb_push_finish(&it) == NB_NOT_THIS_FORM, (int)status, "a first line that is rejected, without memory");
    nb_push_close(&it);
    refuse_from(-1);
}

/* Frames that are rejected, each with a line in the report, which is taken. */
static void releases(void) {
    static nb_push_state it;
    static const uint8_t payload[2] = {0x3F, 0xB0};
    uint8_t frame[8], room[1000];
    size_t n = 0, k, size;
    uint32_t status;
    want(nb_frame_make(payload, sizeof payload, frame, sizeof frame) == sizeof frame, 0, "a short message");
    status = nb_push_open(&it, words, n_words);
    refuse_from(-1);
    for (k = 0; k < 20000 && status == NB_OK; k++) {
        status = nb_push(&it, frame, sizeof frame);
        while ((size = nb_push_take_report(&it, room, sizeof room)) > 0) n += size;
    }
    want(status == NB_OK && n > 200000 && largest_request() < 1000, (int)largest_request(), "what was taken is released");
    nb_push_close(&it);
}

/* As many bytes as a capture must not have. */
static void too_long(void) {
    static nb_push_state it;
    uint64_t n = n_input;
    uint32_t status = nb_push_open(&it, words, n_words);
    if (status == NB_OK) status = nb_push(&it, input, n_input);
    memset(input, 'x', MOST);
    for (; status == NB_OK && n + MOST <= UINT32_MAX; n += MOST) status = nb_push(&it, input, MOST);
    want(status == NB_OK && nb_push(&it, input, (size_t)(UINT32_MAX - n)) == NB_OK, 0, "2^32 - 1 bytes");
    want(nb_push(&it, input, 1) == NB_TOO_LONG && nb_push_finish(&it) == NB_TOO_LONG && nb_push(&it, input, 0) == NB_TOO_LONG, 0, "2^32 bytes");
    nb_push_close(&it);
    want(nb_push_finish(&it) == NB_CLOSED, 0, "closed");
}

int main(int argc, char **argv) {
    pthread_t threads[4];
    pthread_attr_t small;
    int here[4] = {0}, i;
    uint32_t status;
    FILE *from;
    long requests;
    if (argc < 3 || argc > 2 + WORDS) {
        fprintf(stderr, "usage: push INPUT WORD..\n");
        return 2;
    }
    from = fopen(argv[1], "rb");
    n_input = from == NULL ? 0 : fread(input, 1, MOST, from);
    if (from != NULL) fclose(from);
    for (i = 2; i < argc; i++) {
        words[n_words].at = (const uint8_t *)argv[i];
        words[n_words++].size = strlen(argv[i]);
    }
    refuse_from(-1);
    status = nb_convert(words, n_words, input, n_input, expected, MOST, &n_expected, expected_report, MOST, &n_expected_report);
    want(status == NB_OK && n_input > 0, 0, "the whole is converted");
    want(nb_push_size() <= NB_PUSH_MOST, 0, "the header's size");
    if (wrong > 0) return 1;
    if (pthread_attr_init(&small) != 0 || pthread_attr_setstacksize(&small, 256 << 10) != 0) return 2;
    for (i = 0; i < 4; i++)
        if (pthread_create(&threads[i], &small, sizes, &here[i]) != 0) return 2;
    for (i = 0; i < 4; i++) {
        pthread_join(threads[i], NULL);
        want(here[i] == 0, i, "pieces of every size");
    }
    requests = refused();
    refuse_from(-1);
    opens_nothing();
    if (strcmp(argv[2], "--from=capture") == 0) rejected();
    if (strcmp(argv[2], "--from=stream") == 0) releases();
    if (n_input > 10000) too_long();
    printf("push: 87 sizes in 4 threads, %ld requests for memory, %lu bytes a conversion, %d wrong\n", requests,
           (unsigned long)nb_push_size(), wrong);
    return wrong != 0;
}
