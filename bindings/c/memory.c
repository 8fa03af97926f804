/* The memory that libnavbridge.a takes: malloc, realloc and free, in the form in which its code calls them. */
#include <stddef.h>
#include <stdint.h>
#include <stdlib.h>

struct rattle_got {
    uint64_t ok; /* 1, or 0 where there is no memory */
    void *at;    /* never NULL */
};

struct rattle_got rattle_alloc(size_t size, size_t align);
struct rattle_got rattle_realloc(void *old, size_t old_size, size_t size, size_t align);
void rattle_dealloc(void *old);

static struct rattle_got got(void *at) {
    static char none;
    struct rattle_got it;
    it.ok = at != NULL;
    it.at = at != NULL ? at : &none;
    return it;
}

struct rattle_got rattle_alloc(size_t size, size_t align) {
    return got(malloc(size != 0 ? size : align));
}

struct rattle_got rattle_realloc(void *old, size_t old_size, size_t size, size_t align) {
    (void)old_size;
    return got(realloc(old, size != 0 ? size : align));
}

void rattle_dealloc(void *old) {
    free(old);
}
