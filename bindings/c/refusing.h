/* The C library's heap for the tests, which refuses one piece where it is told to, and counts what is not given back. */
#include <stdbool.h>
#include <stdlib.h>

void *__libc_malloc(size_t size);
void *__libc_realloc(void *at, size_t size);
void __libc_free(void *at);

static long refuse_in = -1, taken;
static bool was_refused;

static bool refuses(void) {
    bool now = refuse_in == 0;
    was_refused |= now;
    if (refuse_in >= 0) refuse_in--;
    return now;
}

void *malloc(size_t size) {
    void *at = refuses() ? NULL : __libc_malloc(size);
    taken += at != NULL;
    return at;
}

void *realloc(void *at, size_t size) {
    if (refuses()) return NULL;
    void *now = __libc_realloc(at, size);
    taken += at == NULL && now != NULL;
    return now;
}

void free(void *at) {
    taken -= at != NULL;
    __libc_free(at);
}
