/* Memory that is refused: these functions stand for those of the library's memory.c, which the linker then leaves out. Each of a
 * test's threads has its own count. */
#ifndef REFUSED_H
#define REFUSED_H

#include <stddef.h>
#include <stdint.h>
#include <stdlib.h>

#ifdef __cplusplus
extern "C" {
#endif

struct rattle_got {
    uint64_t ok;
    void *at;
};
struct rattle_got rattle_alloc(size_t size, size_t align);
struct rattle_got rattle_realloc(void *old, size_t old_size, size_t size, size_t align);
void rattle_dealloc(void *old);

static __thread long refused_left, refused_asked, refused_held;
static __thread int refused_some;
static __thread size_t refused_largest;
static char refused_none;

/* From now on so many requests are granted, and those behind them refused; below 0 all are granted. */
static inline void refuse_from(long requests) {
    refused_left = requests;
    refused_some = requests >= 0;
    refused_asked = refused_held = 0;
    refused_largest = 0;
}

/* The same, and what was counted goes on. */
static inline void refuse_next(long requests) {
    refused_left = requests;
    refused_some = requests >= 0;
}

/* How many requests there were since, how many blocks of them are held, and the bytes of the largest. */
static inline long requests_asked(void) {
    return refused_asked;
}

static inline long requests_held(void) {
    return refused_held;
}

static inline size_t largest_request(void) {
    return refused_largest;
}

static struct rattle_got refused_got(void *at) {
    struct rattle_got it;
    it.ok = at != NULL;
    it.at = at != NULL ? at : &refused_none;
    return it;
}

static int refused_now(size_t size) {
    refused_asked++;
    if (size > refused_largest) refused_largest = size;
    return refused_some && refused_left-- <= 0;
}

struct rattle_got rattle_alloc(size_t size, size_t align) {
    if (refused_now(size)) return refused_got(NULL);
    refused_held++;
    return refused_got(malloc(size != 0 ? size : align));
}

struct rattle_got rattle_realloc(void *old, size_t old_size, size_t size, size_t align) {
    (void)old_size;
    return refused_now(size) ? refused_got(NULL) : refused_got(realloc(old, size != 0 ? size : align));
}

void rattle_dealloc(void *old) {
    refused_held--;
    free(old);
}

#ifdef __cplusplus
}
#endif

#endif
