/* r2u2_port.h: the memory of monitors. Include it to bring an allocator, or to use the arena.
 *
 * A program links one definition of r2u2_alloc, r2u2_realloc and r2u2_dealloc:
 *
 *  - libr2u2_heap.a uses malloc, realloc and free;
 *  - arena.c uses arrays, for programs without a heap;
 *  - or your own, over a pool of the operating system.
 *
 * r2u2_open, r2u2_open_under and r2u2_open_checked allocate, r2u2_bytes allocates and frees again, and r2u2_close frees. No
 * other call of the library comes here. If several threads may make these calls at once, the allocator has to be safe for
 * that. The arena isn't: with it threads make them one at a time.
 */
#ifndef R2U2_PORT_H
#define R2U2_PORT_H

#include <stdbool.h>
#include <stddef.h>
#include <stdint.h>

#ifdef __cplusplus
extern "C" {
#endif

/* A block, or none. `at` is never null: if `ok` is false it is any address, and nothing reads or writes there. */
struct r2u2_block {
    bool ok;
    void *at;
};

/* Returns a block of at least `size` bytes at a multiple of `align`, a power of two; `size` may be 0. The block may hold
 * anything. */
struct r2u2_block r2u2_alloc(size_t size, size_t align);

/* Returns a block of at least `size` bytes at a multiple of `align` that begins with the first `kept` bytes of `old`, and
 * frees `old`; `kept` is at most `size`. If no block is found, `old` stays as it is. */
struct r2u2_block r2u2_realloc(void *old, size_t kept, size_t size, size_t align);

/* Frees a block. */
void r2u2_dealloc(void *old);

/* THE ARENA. Link arena.c in place of libr2u2_heap.a, and pass it an array before the first opening:
 *
 *     static uint8_t memory[8192];
 *     r2u2_arena(memory, sizeof memory);
 *
 * Several monitors may have an array each, so that none can take another's memory:
 *
 *     static struct r2u2_pool pool;
 *     r2u2_pool_make(&pool, memory, sizeof memory);
 *     r2u2_pool_use(&pool);
 *     r2u2_open(&monitor, program, count, &fault);
 *
 * Blocks come from the pool that is in use, and return to the pool that they came from, whichever is in use then. They follow
 * one another, each after a head of two words. A new one takes the smallest free block that is large enough, or else comes
 * after the last; the last block grows in place, and so does one before a free block. When all monitors are closed, the array
 * is as at first. */

/* An array that blocks come from. Its members belong to the arena. */
struct r2u2_pool {
    uint8_t *memory;
    size_t count;
    struct r2u2_head *first; /* or null */
    struct r2u2_head *last;  /* or null */
    size_t used;
    size_t most;
    struct r2u2_pool *next; /* the pool that was made before it, or null */
};

/* Makes a pool of the `count` bytes at `memory`, at any address. No monitor is open in it. Make a pool once, or again after
 * all its monitors were closed; it lives as long as the program. The arrays of pools don't overlap. */
void r2u2_pool_make(struct r2u2_pool *pool, void *memory, size_t count);

/* Takes all later blocks from this pool. Without a pool in use each opening ends with R2U2_NO_MEMORY. */
void r2u2_pool_use(struct r2u2_pool *pool);

/* Returns how many bytes of a pool are used now, and how many were used at most since it was made. An array of the second
 * number of bytes, aligned as this one, is enough for the same openings. */
size_t r2u2_pool_used(const struct r2u2_pool *pool);
size_t r2u2_pool_most(const struct r2u2_pool *pool);

/* Make one pool for the whole program from the `count` bytes at `memory` and use it, while no monitor is open; return its
 * numbers. */
void r2u2_arena(void *memory, size_t count);
size_t r2u2_arena_used(void);
size_t r2u2_arena_most(void);

/* Returns how many bytes of an array suffice for r2u2_bytes of this program, and to open it by r2u2_open or r2u2_open_checked
 * and keep it open, in a pool in which no other monitor is. Returns 0 for bytes whose header isn't that of a program, and if
 * the number is past SIZE_MAX. It goes over the bytes once and allocates nothing. Tested, not proved; r2u2_pool_most returns
 * what was needed. */
size_t r2u2_open_bytes(const uint8_t *program, size_t count);

/* Returns the same for r2u2_open_under with this header. */
size_t r2u2_open_under_bytes(const uint8_t *program, size_t count, const char *header, size_t header_count);

#ifdef __cplusplus
}
#endif

#endif
