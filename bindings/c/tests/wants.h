/* A count of what is not as it should be. */
#ifndef WANTS_H
#define WANTS_H

#include <stdio.h>

static int wrong;

static void want(int holds, int number, const char *what) {
    if (!holds) {
        wrong++;
        printf("%d: %s\n", number, what);
    }
}

#endif
