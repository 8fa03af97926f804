/* Compares rows with messages and records of several systems that an independent program wrote.
 *
 *   rows ROWS      vectors/rows.txt
 *
 * Each message is read to a row, whose record is that of the file, and whose message is read as that row; each integer in the unit of its
 * column is the number in the record.
 * Status 0: all as it should be. */
#include <ctype.h>
#include <stdlib.h>
#include <string.h>

#include "navbridge.h"
#include "wants.h"

/* The number in column `index` of a record, whose first line has a satellite and a date before its columns; blanks are no number. */
static int number_at(const char *record, uint32_t index, double *number) {
    char text[20];
    const char *line = strchr(record, '\n') + 1, *at = line + 23;
    size_t i;
    for (;; index--, at += 19) {
        if (*at == '\n') line = at + 1, at = line + 4;
        if (index == 0) break;
    }
    memcpy(text, at, 19);
    text[19] = 0;
    for (i = 0; i < 19; i++)
        if (text[i] == 'D') text[i] = 'e';
    *number = atof(text);
    return text[strspn(text, " ")] != 0;
}

static void row(int line, const uint8_t *payload, size_t n, const char *record) {
    nb_row it, other, untouched;
    nb_column column;
    uint8_t text[1024];
    size_t used, size = strlen(record);
    uint32_t i;
    memset(&untouched, 0xAA, sizeof untouched);
    it = untouched;
    want(nb_row_from_message(payload, n, 1023, &it) == NB_NO_WEEK && nb_row_from_message(payload, n - 1, 2295, &it) == NB_SHORT
             && nb_row_from_message(payload, 2, 2295, &it) == NB_NO_NUMBER && memcmp(&it, &untouched, sizeof it) == 0,
         line, "no row");
    want(nb_row_from_message(payload, n, 2295, &it) == NB_OK, line, "a row");
    want(memcmp(record + 6, &it.letter, 1) == 0 && memcmp(record + 10, it.title, strlen((const char *)it.title)) == 0
             && record[10 + strlen((const char *)it.title)] == '\n',
         line, "letter and title");
    want(nb_row_rinex(&it, text, sizeof text, &used) == NB_OK && used == size && memcmp(text, record, size) == 0, line, "its record");
    memset(text, 0xAA, sizeof text);
    want(nb_row_rinex(&it, text, 100, &used) == NB_OK && used == size && memcmp(text, record, 100) == 0 && text[100] == 0xAA, line,
         "room for a record");
    memset(text, 0xAA, sizeof text);
    want(nb_row_message(&it, text, sizeof text, &used) == NB_OK && used == n + 6 && nb_is_frame(text, used) && text[used] == 0xAA, line, "its message");
    want(it.message == 1020 || memcmp(text + 3, payload, n) == 0, line, "the same message");
    want(nb_row_from_message(text + 3, n, 2295, &other) == NB_OK && memcmp(&it, &other, sizeof it) == 0, line, "the row of its message");
    other.epoch++;
    want(nb_row_message(&other, text, sizeof text, &used) == NB_RECORD_STEP && used == 0, line, "an epoch that is none");
    for (i = 0; nb_row_column(&it, i, &column) == NB_OK; i++) {
        const char *name = nb_row_name(&it, i);
        double number, value = nb_column_value(&column, it.columns[i]);
        want(islower((unsigned char)name[0]), line, "a name");
        if (number_at(record, i, &number) && (column.rule == NB_NUMBER || column.rule == NB_CONSTANT || column.rule == NB_OR_UNKNOWN))
            want(fabs(value - number) <= 1e-12 * fabs(number), line, name);
        other = it;
        other.columns[i] = INT64_MAX;
        want(nb_row_rinex(&other, text, sizeof text, &used) == NB_NO_ITEM && used == 0, line, "a column out of its range");
    }
    want(i == it.count && nb_row_name(&it, i)[0] == 0, line, "columns");
    other = it;
    other.count--;
    want(nb_row_rinex(&other, text, sizeof text, &used) == NB_NO_ITEM, line, "a column less");
    other = it;
    other.epoch = UINT64_MAX;
    want(nb_row_rinex(&other, text, sizeof text, &used) == NB_NO_ITEM, line, "no epoch");
    other = it;
    other.message = 1019;
    want(nb_row_rinex(&other, text, sizeof text, &used) == NB_NO_ITEM && nb_row_column(&other, 0, &column) == NB_NO_ITEM
             && nb_row_name(&other, 0)[0] == 0,
         line, "message 1019");
}

int main(int argc, char **argv) {
    static char line[1024], record[1024];
    uint8_t payload[128];
    FILE *from = argc == 2 ? fopen(argv[1], "r") : NULL;
    size_t n = 0;
    int number = 0, count = 0;
    if (from == NULL) {
        fprintf(stderr, "usage: rows ROWS\n");
        return 2;
    }
    for (;;) {
        const int is_end = fgets(line, sizeof line, from) == NULL;
        number++;
        if ((is_end || strncmp(line, "payload ", 8) == 0) && n > 0) {
            row(number, payload, n, record);
            count++;
        }
        if (is_end) break;
        if (strncmp(line, "payload ", 8) == 0) {
            unsigned byte;
            for (n = 0; n < sizeof payload && sscanf(line + 8 + 2 * n, "%2x", &byte) == 1; n++) payload[n] = (uint8_t)byte;
            record[0] = 0;
        } else if (line[0] != '#' && strlen(record) + strlen(line) < sizeof record) {
            strcat(record, line);
        }
    }
    fclose(from);
    printf("rows: %d rows, %d wrong\n", count, wrong);
    return wrong != 0 || count == 0;
}
