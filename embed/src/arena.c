/* Static memory for the monitor: r2u2_port.h says how to use it. Only calls of the library and of this file come here; it
 * calls memcpy and nothing else. */
#include "r2u2_port.h"

#include <string.h>

/* The head of each block. Blocks, used and free ones, follow each other without a gap; the last one is used. */
struct r2u2_head {
    struct r2u2_head *before; /* of the block before it, or null */
    size_t size;              /* the block's bytes, a multiple of UNIT, and one more if it is free */
};

#define UNIT ((size_t)8)
#define FREE ((size_t)1)

static struct r2u2_pool program_pool; /* of r2u2_arena */
static struct r2u2_pool *pools;       /* all that were made, the last one first */
static struct r2u2_pool *arena;       /* the one in use, or null */

static bool is_made(const struct r2u2_pool *pool) {
    bool found = false;
    for (const struct r2u2_pool *made = pools; made != NULL; made = made->next) {
        found = found || (made == pool);
    }
    return found;
}

void r2u2_pool_make(struct r2u2_pool *pool, void *memory, size_t count) {
    if (!is_made(pool)) {
        pool->next = pools;
        pools = pool;
    }
    pool->memory = memory;
    pool->count = count;
    pool->first = NULL;
    pool->last = NULL;
    pool->used = 0;
    pool->most = 0;
}

void r2u2_pool_use(struct r2u2_pool *pool) { arena = pool; }

size_t r2u2_pool_used(const struct r2u2_pool *pool) { return pool->used; }

size_t r2u2_pool_most(const struct r2u2_pool *pool) { return pool->most; }

void r2u2_arena(void *memory, size_t count) {
    r2u2_pool_make(&program_pool, memory, count);
    r2u2_pool_use(&program_pool);
}

size_t r2u2_arena_used(void) { return program_pool.used; }

size_t r2u2_arena_most(void) { return program_pool.most; }

/* Returns the pool that a block belongs to; if it belongs to none, the pool in use. A block without bytes may begin where its
 * array ends, but its head never does. */
static struct r2u2_pool *pool_of(const struct r2u2_head *block) {
    uintptr_t place = (uintptr_t)(const void *)block;
    struct r2u2_pool *found = arena;
    for (struct r2u2_pool *pool = pools; pool != NULL; pool = pool->next) {
        uintptr_t start = (uintptr_t)pool->memory;
        if ((place >= start) && ((place - start) < pool->count)) {
            found = pool;
        }
    }
    return found;
}

static struct r2u2_block no_block(void) { return (struct r2u2_block){false, &program_pool}; }

static bool is_free(const struct r2u2_head *block) { return (block->size & FREE) != 0U; }

static size_t size_of(const struct r2u2_head *block) { return block->size & ~FREE; }

static void *bytes_of(struct r2u2_head *block) { return &block[1]; }

static struct r2u2_head *block_of(void *at) { return &((struct r2u2_head *)at)[-1]; }

static uint8_t *end_of(struct r2u2_head *block) { return &((uint8_t *)bytes_of(block))[size_of(block)]; }

static struct r2u2_head *after(const struct r2u2_pool *pool, struct r2u2_head *block) {
    return (block == pool->last) ? NULL : (struct r2u2_head *)(void *)end_of(block);
}

static size_t rounded(size_t size) { return ((size + UNIT - 1U) / UNIT) * UNIT; }

static void use_up_to(struct r2u2_pool *pool, size_t end) {
    pool->used = end;
    if (end > pool->most) {
        pool->most = end;
    }
}

/* Resizes the last block, if the array has room for it. */
static bool resize_last(struct r2u2_pool *pool, size_t size) {
    ptrdiff_t from = (uint8_t *)bytes_of(pool->last) - pool->memory;
    size_t start = (size_t)from;
    bool fits = size <= (pool->count - start);
    if (fits) {
        pool->last->size = size;
        use_up_to(pool, start + size);
    }
    return fits;
}

/* Joins two neighbours to one block, which is used or free as the first one. */
static void join(struct r2u2_pool *pool, struct r2u2_head *block, struct r2u2_head *next) {
    struct r2u2_head *further = after(pool, next);
    block->size += sizeof *next + size_of(next);
    if (further != NULL) {
        further->before = block;
    } else {
        pool->last = block;
    }
}

/* Cuts a used block to this size, where a free block fits behind it. */
static void cut(struct r2u2_pool *pool, struct r2u2_head *block, size_t size) {
    struct r2u2_head *further = after(pool, block);
    if ((further != NULL) && ((size_of(block) - size) >= (sizeof *block + UNIT))) {
        struct r2u2_head *rest = (struct r2u2_head *)(void *)&((uint8_t *)bytes_of(block))[size];
        *rest = (struct r2u2_head){block, (size_of(block) - size - sizeof *block) | FREE};
        further->before = rest;
        block->size = size;
        if (is_free(further)) {
            join(pool, rest, further);
        }
    }
}

/* Returns the smallest free block that serves, or null. */
static struct r2u2_head *free_block(const struct r2u2_pool *pool, size_t size, size_t align) {
    struct r2u2_head *best = NULL;
    for (struct r2u2_head *block = pool->first; block != NULL; block = after(pool, block)) {
        bool serves = is_free(block) && (size_of(block) >= size) && (((uintptr_t)bytes_of(block) % align) == 0U);
        if (serves && ((best == NULL) || (size_of(block) < size_of(best)))) {
            best = block;
        }
    }
    return best;
}

/* Makes a block after the last one. */
static struct r2u2_block new_block(struct r2u2_pool *pool, size_t size, size_t align) {
    size_t room = pool->count - pool->used;
    uintptr_t end = (uintptr_t)pool->memory + pool->used + sizeof(struct r2u2_head);
    size_t gap = (align - (end % align)) % align;
    struct r2u2_block found = no_block();
    if ((room >= sizeof(struct r2u2_head)) && ((room - sizeof(struct r2u2_head)) >= gap) &&
        ((room - sizeof(struct r2u2_head) - gap) >= size)) {
        struct r2u2_head *block = (struct r2u2_head *)(void *)&pool->memory[pool->used + gap];
        if (pool->last != NULL) {
            pool->last->size += gap;
        } else {
            pool->first = block;
        }
        *block = (struct r2u2_head){pool->last, size};
        pool->last = block;
        use_up_to(pool, pool->used + gap + sizeof *block + size);
        found = (struct r2u2_block){true, bytes_of(block)};
    }
    return found;
}

static struct r2u2_block alloc_in(struct r2u2_pool *pool, size_t size, size_t align) {
    struct r2u2_block found = no_block();
    if ((pool != NULL) && (size <= (SIZE_MAX - UNIT))) {
        size_t whole = rounded(size);
        size_t aligned = (align < UNIT) ? UNIT : align;
        struct r2u2_head *block = free_block(pool, whole, aligned);
        if (block == NULL) {
            found = new_block(pool, whole, aligned);
        } else {
            block->size = size_of(block);
            cut(pool, block, whole);
            found = (struct r2u2_block){true, bytes_of(block)};
        }
    }
    return found;
}

struct r2u2_block r2u2_alloc(size_t size, size_t align) { return alloc_in(arena, size, align); }

/* Grows a block in place, into the free block behind it, or shrinks it; says whether it has this size then. */
static bool resize_in_place(struct r2u2_pool *pool, struct r2u2_head *block, size_t size) {
    struct r2u2_head *next = after(pool, block);
    if ((size > size_of(block)) && is_free(next) && ((size - size_of(block)) <= (sizeof *next + size_of(next)))) {
        join(pool, block, next);
    }
    bool fits = size <= size_of(block);
    if (fits) {
        cut(pool, block, size);
    }
    return fits;
}

struct r2u2_block r2u2_realloc(void *old, size_t kept, size_t size, size_t align) {
    struct r2u2_head *block = block_of(old);
    struct r2u2_pool *pool = pool_of(block);
    struct r2u2_block found = no_block();
    if (size <= (SIZE_MAX - UNIT)) {
        bool is_last = block == pool->last;
        if (is_last ? resize_last(pool, rounded(size)) : resize_in_place(pool, block, rounded(size))) {
            found = (struct r2u2_block){true, old};
        } else if (!is_last) {
            found = alloc_in(pool, size, align);
            if (found.ok) {
                (void)memcpy(found.at, old, kept);
                r2u2_dealloc(old);
            }
        } else {
            /* the array is full */
        }
    }
    return found;
}

void r2u2_dealloc(void *old) {
    struct r2u2_head *block = block_of(old);
    struct r2u2_pool *pool = pool_of(block);
    struct r2u2_head *next = after(pool, block);
    block->size |= FREE;
    if ((next != NULL) && is_free(next)) {
        join(pool, block, next);
    }
    if ((block->before != NULL) && is_free(block->before)) {
        block = block->before;
        join(pool, block, after(pool, block));
    }
    if (block == pool->last) {
        pool->last = block->before;
    }
    if (pool->last == NULL) {
        pool->first = NULL;
        pool->used = 0;
    } else {
        ptrdiff_t end = end_of(pool->last) - pool->memory;
        pool->used = (size_t)end;
    }
}

/* What follows is how many bytes an opening needs. It counts each block that an opening asks for as if none were freed before
 * the monitor is open, so the order of blocks doesn't matter. A list that grows moves from block to block: it counts thrice.
 * Sums have 64 bits on any processor. The sizes of elements are those that the library has on its 64-bit targets. */

/* The numbers of a program's header, and the sum of the sizes that its instructions store. */
struct r2u2_counts {
    uint64_t width;
    uint64_t bz;
    uint64_t ft;
    uint64_t pt;
    uint64_t outs;
    uint64_t signals;
    uint64_t signal_bytes;
    uint64_t slots;
    uint64_t boxes;
};

#define HEADER_1 ((size_t)32) /* the bytes of a header of version 1, and of version 2 */
#define HEADER_2 ((size_t)40)
#define ENTRY ((size_t)24) /* the bytes of an instruction and of an output, and where an instruction has its size */
#define SIZE_AT ((size_t)20)
#define SIGNAL_ENTRY ((size_t)8)
#define MOST_SLOTS ((uint64_t)16777216) /* no program with more slots and boxes opens */

static uint64_t number_at(const uint8_t *bytes) {
    return (uint64_t)bytes[0] | ((uint64_t)bytes[1] << 8U) | ((uint64_t)bytes[2] << 16U) | ((uint64_t)bytes[3] << 24U);
}

/* Returns the sum of the sizes of instructions, at most MOST_SLOTS. */
static uint64_t sizes_of(const uint8_t *entries, size_t count) {
    uint64_t sum = 0;
    for (size_t i = 0; i < count; i++) {
        sum += number_at(&entries[(i * ENTRY) + SIZE_AT]);
        sum = (sum > MOST_SLOTS) ? MOST_SLOTS : sum;
    }
    return sum;
}

/* Reads the counts of a program, and returns whether its header says that the program has that number of bytes. */
static bool read_counts(const uint8_t *program, size_t count, struct r2u2_counts *counts) {
    bool whole = false;
    if (count >= HEADER_1) {
        bool second = (program[4] == 2U) && (count >= HEADER_2);
        size_t header = second ? HEADER_2 : HEADER_1;
        *counts = (struct r2u2_counts){0};
        counts->width = number_at(&program[8]);
        counts->bz = number_at(&program[12]);
        counts->ft = number_at(&program[16]);
        counts->pt = number_at(&program[20]);
        counts->outs = number_at(&program[24]);
        counts->signals = second ? number_at(&program[32]) : 0U;
        counts->signal_bytes = second ? number_at(&program[36]) : 0U;
        uint64_t entries = ENTRY * (counts->bz + counts->ft + counts->pt + counts->outs);
        uint64_t names = number_at(&program[28]) + counts->signal_bytes;
        whole = count == (header + entries + (SIGNAL_ENTRY * counts->signals) + names);
        if (whole) {
            const uint8_t *future = &program[header + (ENTRY * (size_t)counts->bz)];
            counts->slots = sizes_of(future, (size_t)counts->ft);
            counts->boxes = sizes_of(&future[ENTRY * (size_t)counts->ft], (size_t)counts->pt);
        }
    }
    return whole;
}

static uint64_t rounded_up(uint64_t size) { return ((size + UNIT - 1U) / UNIT) * UNIT; }

/* A block with `count` elements; none without elements. */
static uint64_t block_for(uint64_t size, uint64_t count) {
    return (count == 0U) ? 0U : (sizeof(struct r2u2_head) + rounded_up(size * count));
}

/* A list that is made with room for its members, up to an eighth more than they are. */
static uint64_t list_for(uint64_t size, uint64_t count) { return block_for(size, count + ((count + 7U) / 8U)); }

static uint64_t grown_for(uint64_t size, uint64_t count) { return 3U * list_for(size, count); }

/* Reading: the lists of a program, and five that hold its entries for a while. */
static uint64_t reading_of(const struct r2u2_counts *counts) {
    return list_for(16U, counts->bz) + list_for(24U + 20U, counts->ft) + list_for(24U + 20U, counts->pt) +
           list_for(4U, counts->ft) + list_for(4U, counts->pt) + list_for(20U + 80U, counts->outs) +
           list_for(8U + 72U, counts->signals) + (4U * sizeof(struct r2u2_head));
}

/* Verifying: columns, names in order, ranges, delays, sizes, and the signal that each instruction reads. */
static uint64_t verifying_of(const struct r2u2_counts *counts) {
    uint64_t columns = block_for(2U, counts->width) + block_for(8U, counts->width);
    uint64_t names = grown_for(24U, counts->signals) + counts->signal_bytes +
                     (counts->signals * (sizeof(struct r2u2_head) + UNIT));
    return columns + names + grown_for(16U, counts->bz) + grown_for(8U, counts->bz) + (4U * grown_for(4U, counts->ft)) +
           grown_for(4U, counts->pt);
}

/* Loading for rows of `width` columns: the monitor, what runs, and for each column how it is read and a number. */
static uint64_t loading_of(const struct r2u2_counts *counts, uint64_t width) {
    return block_for(488U, 1U) + block_for(8U, counts->bz) + block_for(72U, counts->ft) + block_for(16U, counts->slots) +
           block_for(40U, counts->pt) + block_for(16U, counts->boxes) + block_for(8U, counts->outs) + block_for(1U, width) +
           block_for(8U, width);
}

/* The bytes of an opening for rows of `width` columns, next to `others`; 0 past the numbers of a size_t. */
static size_t opening_of(const struct r2u2_counts *counts, uint64_t width, uint64_t others) {
    uint64_t bytes = (2U * UNIT) + reading_of(counts) + verifying_of(counts) + loading_of(counts, width) + others;
    return (bytes > SIZE_MAX) ? 0U : (size_t)bytes;
}

/* A list of `count` elements that begins small and doubles: all its blocks, of which there are at most 16. */
static uint64_t doubled_for(uint64_t size, uint64_t count) {
    return (4U * size * count) + (16U * (sizeof(struct r2u2_head) + UNIT));
}

/* The trees of a header's names: all nodes but their roots have at least 5 names. */
static uint64_t trees_for(uint64_t names) { return ((names / 5U) + 2U) * block_for(616U, 1U); }

/* A header: its fields as they are read and twice again, a block for each name, names in order, and columns. */
static uint64_t binding_of(const struct r2u2_counts *counts, uint64_t columns, uint64_t header_count) {
    uint64_t fields = doubled_for(1U, header_count) + doubled_for(8U, columns) + (2U * block_for(1U, header_count)) +
                      (2U * block_for(8U, columns));
    uint64_t names = header_count + (columns * (sizeof(struct r2u2_head) + UNIT)) + trees_for(columns);
    return fields + names + doubled_for(4U, columns) + doubled_for(4U, 0U) + block_for(4U, counts->signals);
}

size_t r2u2_open_bytes(const uint8_t *program, size_t count) {
    struct r2u2_counts counts = {0};
    size_t bytes = 0;
    if (read_counts(program, count, &counts)) {
        bytes = opening_of(&counts, counts.width, 0U);
    }
    return bytes;
}

size_t r2u2_open_under_bytes(const uint8_t *program, size_t count, const char *header, size_t header_count) {
    struct r2u2_counts counts = {0};
    size_t bytes = 0;
    if (read_counts(program, count, &counts)) {
        uint64_t columns = 1;
        for (size_t i = 0; i < header_count; i++) {
            columns += (header[i] == ',') ? 1U : 0U;
        }
        bytes = opening_of(&counts, columns, binding_of(&counts, columns, header_count));
    }
    return bytes;
}
