/* navbridge as a C program: the words of the command line, standard input, standard output, standard error and the status are
 * those of navbridge. All is read first; where the rooms were too small, the second call has the lengths that the first told. */
#include <stdio.h>
#include <stdlib.h>
#include <string.h>

#include "navbridge.h"

static uint8_t *read_all(FILE *from, size_t *size) {
    size_t room = 65536, got;
    uint8_t *bytes = (uint8_t *)malloc(room);
    *size = 0;
    while (bytes != NULL && (got = fread(bytes + *size, 1, room - *size, from)) > 0) {
        *size += got;
        if (*size == room) {
            uint8_t *more = (uint8_t *)realloc(bytes, room *= 2);
            if (more == NULL) free(bytes);
            bytes = more;
        }
    }
    return bytes;
}

int main(int argc, char **argv) {
    size_t n_words = argc > 0 ? (size_t)argc - 1 : 0, size, used = 0, report_used = 0, room = 65536, report_room = 4096, i;
    nb_bytes *words = (nb_bytes *)malloc((n_words + 1) * sizeof *words);
    uint8_t *input = read_all(stdin, &size);
    uint32_t status = NB_NO_MEMORY;
    for (i = 0; words != NULL && i < n_words; i++) {
        words[i].at = (const uint8_t *)argv[i + 1];
        words[i].size = strlen(argv[i + 1]);
    }
    while (words != NULL && input != NULL) {
        uint8_t *output = (uint8_t *)malloc(room), *report = (uint8_t *)malloc(report_room);
        if (output == NULL || report == NULL) {
            free(output);
            free(report);
            status = NB_NO_MEMORY;
            break;
        }
        status = nb_convert(words, n_words, input, size, output, room, &used, report, report_room, &report_used);
        if ((status == NB_OUTPUT_ROOM || status == NB_REPORT_ROOM) && (used > room || report_used > report_room)) {
            if (used > room) room = used;
            if (report_used > report_room) report_room = report_used;
            free(output);
            free(report);
            continue;
        }
        if (fwrite(output, 1, used < room ? used : room, stdout) < (used < room ? used : room) || fflush(stdout) != 0)
            status = NB_OUTPUT_ROOM;
        fwrite(report, 1, report_used < report_room ? report_used : report_room, stderr);
        free(output);
        free(report);
        break;
    }
    free(words);
    free(input);
    return (int)status;
}
