/* Loaded before the C library: refuses the request for memory whose number REFUSE_AT says, and each later one where REFUSE_LATER is set. At the
 * end it ends with status 99 where what was asked for and what was given back differ, and with 100 where nothing was refused. */
#define _GNU_SOURCE
#include <stdlib.h>
#include <unistd.h>

extern void *__libc_malloc(size_t), *__libc_realloc(void *, size_t);
extern void __libc_free(void *);

static long count, held, refused;

static int is_refused(void) {
    const char *at = getenv("REFUSE_AT");
    long number = at ? atol(at) : 0;
    count++;
    if (number == 0 || count < number || (count > number && !getenv("REFUSE_LATER"))) return 0;
    refused++;
    return 1;
}

void *malloc(size_t size) {
    void *found = is_refused() ? NULL : __libc_malloc(size);
    held += found != NULL;
    return found;
}

void *realloc(void *old, size_t size) {
    void *found = is_refused() ? NULL : __libc_realloc(old, size);
    held += !old && found;
    return found;
}

void free(void *old) {
    held -= old != NULL;
    __libc_free(old);
}

__attribute__((destructor)) static void tell(void) {
    if (held != 0) _exit(99);
    if (refused == 0) _exit(100);
}
