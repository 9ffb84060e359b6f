/* The heap of the C library for the monitor. */
#include <stdlib.h>

#include "r2u2_port.h"

static struct r2u2_block found(void *at) {
    static char nothing;
    return (at != NULL) ? (struct r2u2_block){true, at} : (struct r2u2_block){false, &nothing};
}

struct r2u2_block r2u2_alloc(size_t size, size_t align) { return found(malloc(size ? size : align)); }

struct r2u2_block r2u2_realloc(void *old, size_t kept, size_t size, size_t align) {
    (void)kept;
    return found(realloc(old, size ? size : align));
}

void r2u2_dealloc(void *old) { free(old); }
