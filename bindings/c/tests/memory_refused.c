/* One conversion, with the first, the second .. of its requests for memory refused from there on: the answer is NB_NO_MEMORY, or
 * NB_OK once there is enough; what is put is a prefix of the whole output where the job writes as it goes, and nothing leaks.
 *
 *   memory_refused INPUT OUTPUT WORD..    what the words make of INPUT is OUTPUT, of which they write a prefix as they go
 */
#include <stdio.h>
#include <stdlib.h>
#include <string.h>

#include "navbridge.h"
#include "refused.h"

enum { MOST = 1 << 22, WORDS = 16 };

static uint8_t input[MOST], expected[MOST], output[MOST], report[MOST];

static size_t read_file(const char *name, uint8_t *into) {
    FILE *from = fopen(name, "rb");
    size_t n = from == NULL ? 0 : fread(into, 1, MOST, from);
    if (from != NULL) fclose(from);
    return n;
}

int main(int argc, char **argv) {
    nb_bytes words[WORDS];
    size_t n_input, n_expected, n_words = 0;
    long from = 0, wrong = 0;
    int i;
    if (argc < 4 || argc > 3 + WORDS) {
        fprintf(stderr, "usage: memory_refused INPUT OUTPUT WORD..\n");
        return 2;
    }
    n_input = read_file(argv[1], input);
    n_expected = read_file(argv[2], expected);
    for (i = 3; i < argc; i++) {
        words[n_words].at = (const uint8_t *)argv[i];
        words[n_words++].size = strlen(argv[i]);
    }
    for (;; from++) {
        size_t used = 0, report_used = 0;
        uint32_t status;
        refuse_from(from);
        status = nb_convert(words, n_words, input, n_input, output, MOST, &used, report, MOST, &report_used);
        if (requests_held() != 0 || used > n_expected || memcmp(output, expected, used) != 0) wrong++;
        if (requests_asked() <= from) {
            if (status != NB_OK || used != n_expected) wrong++;
            break;
        }
        if (status != NB_NO_MEMORY) wrong++;
    }
    printf("memory_refused: %ld requests, %ld wrong\n", from, wrong);
    return wrong != 0;
}
