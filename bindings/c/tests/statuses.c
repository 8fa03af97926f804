/* The names and texts of statuses are those of reasons.txt, whose lines are `NUMBER NAME TEXT`; other numbers have none.
 *
 *   statuses REASONS
 */
#include <stdlib.h>
#include <string.h>

#include "navbridge.h"
#include "wants.h"

int main(int count, char **names) {
    static char line[256];
    int number = 0, next;
    FILE *file = count == 2 ? fopen(names[1], "r") : NULL;
    if (file == NULL) return 2;
    while (fgets(line, sizeof line, file) != NULL) {
        char *name = strchr(line, ' '), *text = name != NULL ? strchr(name + 1, ' ') : NULL, *end = strchr(line, '\n');
        if (text == NULL || end == NULL) return 2;
        *name++ = *text++ = *end = 0;
        for (next = atoi(line); number < next; number++)
            want(strcmp(nb_status_name((nb_status)number), "unknown status") == 0
                     && strcmp(nb_status_text((nb_status)number), "unknown status") == 0,
                 number, "a number of no status");
        want(strcmp(nb_status_name((nb_status)number), name) == 0, number, name);
        want(strcmp(nb_status_text((nb_status)number), text) == 0 && text[strlen(text) - 1] != '.' && strlen(text) < 100, number, text);
        number++;
    }
    want(number > NB_NO_SIGNAL && strcmp(nb_status_text((nb_status)number), "unknown status") == 0, number, "behind the last");
    fclose(file);
    return wrong != 0;
}
