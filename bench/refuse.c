/* Refuses requests for memory of a program that calls the C library's allocator; for LD_PRELOAD.
 *
 *   REFUSE_AT=N     the N-th request (malloc, calloc, realloc, counted together from 1) finds no memory
 *   REFUSE_FROM=N   the N-th and all after it
 *   REFUSE_TOLD=F   each refusal appends its number to the file F
 *
 * The requests are handed on to the C library's own names for them, so nothing is looked up.
 */
#include <errno.h>
#include <fcntl.h>
#include <stdio.h>
#include <stdlib.h>
#include <string.h>
#include <unistd.h>

void *__libc_malloc(size_t);
void *__libc_calloc(size_t, size_t);
void *__libc_realloc(void *, size_t);

static unsigned long number;

static unsigned long wanted(const char *name) {
    const char *text = getenv(name);
    return text ? strtoul(text, 0, 10) : 0;
}

static int refused(void) {
    number++;
    unsigned long at = wanted("REFUSE_AT"), from = wanted("REFUSE_FROM");
    if (number != at && (from == 0 || number < from)) return 0;
    const char *told = getenv("REFUSE_TOLD");
    int file = told ? open(told, O_WRONLY | O_CREAT | O_APPEND, 0644) : -1;
    if (file >= 0) {
        char digits[24];
        int count = sizeof digits;
        digits[--count] = '\n';
        for (unsigned long rest = number; rest; rest /= 10) digits[--count] = '0' + rest % 10;
        if (write(file, digits + count, sizeof digits - count) < 0) abort();
        close(file);
    }
    errno = ENOMEM;
    return 1;
}

void *malloc(size_t size) { return refused() ? NULL : __libc_malloc(size); }
void *calloc(size_t count, size_t size) { return refused() ? NULL : __libc_calloc(count, size); }
void *realloc(void *old, size_t size) { return refused() ? NULL : __libc_realloc(old, size); }
