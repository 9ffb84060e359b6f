/* memcpy, memmove and memset, for a program without a C library: the only calls that the library and arena.c make besides
 * the allocator in r2u2_port.h. Compile it with -ffreestanding -fno-builtin. */
#include <stddef.h>
#include <stdint.h>

/* Otherwise GCC makes the loops below into calls of these very functions. */
#if defined(__GNUC__) && !defined(__clang__)
#pragma GCC optimize("no-tree-loop-distribute-patterns")
#endif

void *memcpy(void *to, const void *from, size_t count);
void *memmove(void *to, const void *from, size_t count);
void *memset(void *to, int byte, size_t count);

void *memcpy(void *to, const void *from, size_t count) {
    uint8_t *into = to;
    const uint8_t *out = from;
    for (size_t i = 0; i < count; i++) {
        into[i] = out[i];
    }
    return to;
}

void *memmove(void *to, const void *from, size_t count) {
    uint8_t *into = to;
    const uint8_t *out = from;
    if (((uintptr_t)into - (uintptr_t)out) >= count) {
        for (size_t i = 0; i < count; i++) {
            into[i] = out[i];
        }
    } else {
        for (size_t i = count; i > 0U; i--) {
            into[i - 1U] = out[i - 1U];
        }
    }
    return to;
}

void *memset(void *to, int byte, size_t count) {
    uint8_t *into = to;
    for (size_t i = 0; i < count; i++) {
        into[i] = (uint8_t)byte;
    }
    return to;
}
