/* Four threads, each with memory of its own, do one conversion again and again: each gives the same bytes.
 *
 *   threads INPUT OUTPUT WORD..    what the words make of INPUT is OUTPUT
 */
#include <pthread.h>
#include <stdio.h>
#include <stdlib.h>
#include <string.h>

#include "navbridge.h"

enum { MOST = 1 << 22, TURNS = 25, WORDS = 16 };

static uint8_t input[MOST], expected[MOST];
static size_t n_input, n_expected, n_words;
static nb_bytes words[WORDS];

static size_t read_file(const char *name, uint8_t *into) {
    FILE *from = fopen(name, "rb");
    size_t n = from == NULL ? 0 : fread(into, 1, MOST, from);
    if (from != NULL) fclose(from);
    return n;
}

static void *turns(void *wrong) {
    uint8_t *output = (uint8_t *)malloc(MOST), *report = (uint8_t *)malloc(MOST);
    int i;
    for (i = 0; i < TURNS && output != NULL && report != NULL; i++) {
        size_t used = 0, report_used = 0;
        uint32_t status = nb_convert(words, n_words, input, n_input, output, MOST, &used, report, MOST, &report_used);
        if (status != NB_OK || used != n_expected || memcmp(output, expected, used) != 0) ++*(int *)wrong;
    }
    if (output == NULL || report == NULL) ++*(int *)wrong;
    free(output);
    free(report);
    return NULL;
}

int main(int argc, char **argv) {
    pthread_t threads[4];
    int wrong[4] = {0}, all = 0, i;
    if (argc < 4 || argc > 3 + WORDS) {
        fprintf(stderr, "usage: threads INPUT OUTPUT WORD..\n");
        return 2;
    }
    n_input = read_file(argv[1], input);
    n_expected = read_file(argv[2], expected);
    for (i = 3; i < argc; i++) {
        words[n_words].at = (const uint8_t *)argv[i];
        words[n_words++].size = strlen(argv[i]);
    }
    for (i = 0; i < 4; i++)
        if (pthread_create(&threads[i], NULL, turns, &wrong[i]) != 0) return 2;
    for (i = 0; i < 4; i++) {
        pthread_join(threads[i], NULL);
        all += wrong[i];
    }
    printf("threads: 4 threads, %d turns, %d wrong\n", 4 * TURNS, all);
    return all != 0;
}
