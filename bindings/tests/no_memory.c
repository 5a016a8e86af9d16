/* Linked into the library: each of its requests for memory is refused. */
#include <stddef.h>

void *malloc(size_t size) {
    (void)size;
    return NULL;
}

void *realloc(void *old, size_t size) {
    (void)old;
    (void)size;
    return NULL;
}

void free(void *old) { (void)old; }
