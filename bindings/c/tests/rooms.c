/* One conversion into rooms of many sizes, 0 among them: what is put is the prefix that fits, the lengths are those of the whole
 * texts, the status says which room was too small, and nothing behind a room or behind a text is written.
 *
 *   rooms INPUT OUTPUT REPORT WORD..    what the words make of INPUT is OUTPUT and REPORT
 */
#include <stdio.h>
#include <string.h>

#include "navbridge.h"

enum { MOST = 1 << 20, WORDS = 16, FILL = 0xA5 };

static uint8_t input[MOST], expected[2][MOST], room[2][MOST];
static size_t n_input, n_expected[2], n_words;
static nb_bytes words[WORDS];
static long calls, wrong;

static size_t read_file(const char *name, uint8_t *into) {
    FILE *from = fopen(name, "rb");
    size_t n = from == NULL ? 0 : fread(into, 1, MOST, from);
    if (from != NULL) fclose(from);
    return n;
}

/* whether a room of this size holds the prefix of its text, and nothing else was written */
static int stands(int which, size_t size, size_t used) {
    size_t put = used < size ? used : size, i;
    if (used != n_expected[which] || memcmp(room[which], expected[which], put) != 0) return 0;
    for (i = put; i < put + 64 && i < MOST; i++)
        if (room[which][i] != FILL) return 0;
    return 1;
}

static void convert(size_t size, size_t report_size) {
    size_t used = 1, report_used = 1;
    uint32_t status, wanted = size < n_expected[0] ? NB_OUTPUT_ROOM : report_size < n_expected[1] ? NB_REPORT_ROOM : NB_OK;
    memset(room[0], FILL, n_expected[0] + 128);
    memset(room[1], FILL, n_expected[1] + 128);
    status = nb_convert(words, n_words, input, n_input, size == 0 ? NULL : room[0], size, &used,
                        report_size == 0 ? NULL : room[1], report_size, &report_used);
    calls++;
    if (status != wanted || !stands(0, size, used) || !stands(1, report_size, report_used)) wrong++;
}

int main(int argc, char **argv) {
    size_t size, used = 1, report_used = 1, next;
    int i;
    if (argc < 5 || argc > 4 + WORDS) {
        fprintf(stderr, "usage: rooms INPUT OUTPUT REPORT WORD..\n");
        return 2;
    }
    n_input = read_file(argv[1], input);
    n_expected[0] = read_file(argv[2], expected[0]);
    n_expected[1] = read_file(argv[3], expected[1]);
    if (n_expected[0] + 128 > MOST || n_expected[1] + 128 > MOST) return 2;
    for (i = 4; i < argc; i++) {
        words[n_words].at = (const uint8_t *)argv[i];
        words[n_words++].size = strlen(argv[i]);
    }
    for (size = 0; size <= n_expected[0] + 2; size = next) {
        next = size < 4 || size + 4 > n_expected[0] ? size + 1 : size + 97 < n_expected[0] - 3 ? size + 97 : n_expected[0] - 3;
        convert(size, n_expected[1]);
    }
    for (size = 0; size <= n_expected[1] + 2; size++) {
        convert(n_expected[0], size);
        convert(n_expected[0] / 2, size);
    }
    /* no words, and a word that is not UTF-8: nothing is made */
    if (nb_convert(NULL, 0, input, n_input, room[0], MOST, &used, room[1], MOST, &report_used) != NB_NO_JOB || used != 0 || report_used != 0) wrong++;
    words[0].at = (const uint8_t *)"\xFF";
    words[0].size = 1;
    used = report_used = 1;
    if (nb_convert(words, n_words, NULL, 0, room[0], MOST, &used, room[1], MOST, &report_used) != NB_NO_TEXT || used != 0 || report_used != 0) wrong++;
    printf("rooms: %ld calls, %ld wrong\n", calls + 2, wrong);
    return wrong != 0;
}
