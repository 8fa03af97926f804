/* The plain program that the figures of bench/decimals.sh compare with: numbers at a scale to texts and back, as the
 * navigation records of RINEX have them.
 *
 *   decimals print COUNT   prints COUNT numbers at the scale of angles, and writes numbers per second
 *   decimals read COUNT    prints each and reads its text again, and compares
 */
#include "reading.h"
#include <time.h>

static double now(void) {
    struct timespec t;
    clock_gettime(CLOCK_MONOTONIC, &t);
    return t.tv_sec + t.tv_nsec * 1e-9;
}

int main(int count, char **words) {
    if (count != 3) return 2;
    long many = atol(words[2]);
    int reads = strcmp(words[1], "read") == 0;
    char text[32];
    uint64_t state = 1, sum = 0;
    fill_tables();
    fill_times();
    double from = now();
    for (long i = 0; i < many; i++) {
        state = state * 6364136223846793005u + 1442695040888963407u;
        int64_t number = (int64_t)(state >> 32) - 2147483648;
        put_number(text, number, PI31);
        sum += text[i % 19];
        if (reads) {
            rejected = 0;
            if (in_width(number_at(text, PI31), 32) != number || rejected) return 1;
            sum += number;
        }
    }
    double seconds = now() - from;
    printf("C, %-6s         %12.0f numbers/s%s  (%llu)\n", words[1], many / seconds, reads ? " written and read" : "",
           (unsigned long long)sum);
    return 0;
}
