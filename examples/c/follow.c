/* navbridge over an input that goes on: the words of the command line, standard input, standard output, standard error and the
 * status are those of navbridge, for the jobs whose input can be pushed. Each record is written as soon as it is decided. */
#include <stdio.h>
#include <stdlib.h>
#include <string.h>
#include <unistd.h>

#include "navbridge.h"

static nb_push_state state;

/* Writes what waits; whether it was written. */
static int passes_on(void) {
    uint8_t room[4096];
    size_t n;
    while ((n = nb_push_take(&state, room, sizeof room)) > 0)
        if (fwrite(room, 1, n, stdout) < n) return 0;
    while ((n = nb_push_take_report(&state, room, sizeof room)) > 0) fwrite(room, 1, n, stderr);
    return fflush(stdout) == 0;
}

int main(int argc, char **argv) {
    size_t n_words = argc > 0 ? (size_t)argc - 1 : 0, i;
    nb_bytes *words = (nb_bytes *)malloc((n_words + 1) * sizeof *words);
    uint8_t bytes[4096];
    ssize_t n = 1;
    uint32_t status;
    if (words == NULL || nb_version() != NB_VERSION) return NB_NO_MEMORY;
    for (i = 0; i < n_words; i++) {
        words[i].at = (const uint8_t *)argv[i + 1];
        words[i].size = strlen(argv[i + 1]);
    }
    status = nb_push_open(&state, words, n_words);
    while (status == NB_OK && n > 0) {
        n = read(STDIN_FILENO, bytes, sizeof bytes);
        status = n > 0 ? nb_push(&state, bytes, (size_t)n) : n == 0 ? nb_push_finish(&state) : 3;
        if (!passes_on() && status == NB_OK) status = 4;
    }
    nb_push_close(&state);
    free(words);
    return (int)status;
}
