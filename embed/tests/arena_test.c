/* Tests the arena: by blocks, and by monitors over arrays of every size up to the size that is enough. With WITHOUT_LIBRARY by
 * blocks alone, for processors that have no library. */
#include <stdbool.h>
#include <stdint.h>
#include <stdio.h>
#include <string.h>

#include "r2u2_port.h"
#ifndef WITHOUT_LIBRARY
#include "r2u2.h"
#endif

static int checks, failed;

#define CHECK(claim) check(claim, #claim, __LINE__)

static void check(bool holds, const char *claim, int line) {
    checks++;
    if (holds) return;
    failed++;
    fprintf(stderr, "arena_test.c:%d: not so: %s\n", line, claim);
}

static _Alignas(64) uint8_t memory[1 << 16];

/* The bytes that the arena keeps before each block. */
enum { HEAD = 2 * sizeof(void *) };

/* Blocks are aligned, are in the array, and don't meet. */
static void aligned_blocks(size_t from) {
    r2u2_arena(memory + from, 4096);
    uint8_t *end = memory + from;
    for (size_t align = 1; align <= 64; align *= 2) {
        struct r2u2_block block = r2u2_alloc(3 * align, align);
        CHECK(block.ok && (uintptr_t)block.at % align == 0 && (uint8_t *)block.at >= end);
        end = (uint8_t *)block.at + 3 * align;
        memset(block.at, 0xa5, 3 * align);
    }
    CHECK(end <= memory + from + r2u2_arena_used());
    CHECK(r2u2_arena_most() == r2u2_arena_used());
}

/* The last block grows where it is; another one moves, with what it holds. */
static void growing_blocks(void) {
    r2u2_arena(memory, 256);
    struct r2u2_block first = r2u2_alloc(8, 8), last = r2u2_alloc(8, 8);
    memcpy(first.at, "abcdefgh", 8);
    struct r2u2_block grown = r2u2_realloc(last.at, 8, 64, 8);
    CHECK(grown.ok && grown.at == last.at);
    struct r2u2_block moved = r2u2_realloc(first.at, 8, 16, 8);
    CHECK(moved.ok && moved.at != first.at && memcmp(moved.at, "abcdefgh", 8) == 0);
    struct r2u2_block smaller = r2u2_realloc(grown.at, 64, 32, 8);
    CHECK(smaller.ok && smaller.at == grown.at);
    struct r2u2_block refused = r2u2_realloc(moved.at, 16, 4096, 8);
    CHECK(!refused.ok && refused.at && memcmp(moved.at, "abcdefgh", 8) == 0);
    CHECK(!r2u2_realloc(smaller.at, 32, 4096, 8).ok);
    r2u2_dealloc(smaller.at);
    CHECK(r2u2_arena_used() > 0);
    r2u2_dealloc(moved.at);
    CHECK(r2u2_arena_used() == 0 && r2u2_arena_most() > 0);
}

static void no_room(void) {
    r2u2_arena(memory, 64);
    CHECK(!r2u2_alloc(SIZE_MAX, 8).ok && !r2u2_alloc(64, 8).ok && !r2u2_alloc(1, 4096).ok);
    struct r2u2_block all = r2u2_alloc(48, 16);
    CHECK(all.ok && r2u2_arena_used() == 64 && !r2u2_alloc(0, 1).ok);
    r2u2_dealloc(all.at);
    CHECK(r2u2_alloc(0, 1).ok);
    r2u2_arena(NULL, 0);
    CHECK(!r2u2_alloc(0, 1).ok);
}

/* A free block is taken again, what is left of it stays free, and free neighbours become one. */
static void free_blocks(void) {
    r2u2_arena(memory, 512);
    struct r2u2_block first = r2u2_alloc(64, 8), second = r2u2_alloc(32, 8), last = r2u2_alloc(8, 8);
    size_t used = r2u2_arena_used();
    r2u2_dealloc(first.at);
    struct r2u2_block again = r2u2_alloc(24, 8), rest = r2u2_alloc(20, 4);
    CHECK(again.at == first.at && (uint8_t *)rest.at == (uint8_t *)first.at + 24 + HEAD && r2u2_arena_used() == used);
    r2u2_dealloc(second.at);
    r2u2_dealloc(again.at);
    r2u2_dealloc(rest.at);
    CHECK(r2u2_alloc(64 + HEAD + 32, 8).at == first.at && r2u2_arena_used() == used);
    r2u2_dealloc(first.at);
    r2u2_dealloc(last.at);
    CHECK(r2u2_arena_used() == 0 && r2u2_arena_most() == used);
}

/* Blocks that are asked for, resized and freed in any order keep what they hold; in the end the array is as at first. */
static void any_blocks(void) {
    enum { BLOCKS = 24, STEPS = 20000 };
    static struct {
        uint8_t *at;
        size_t size, align;
    } all[BLOCKS];
    uint32_t dice = 1;
    r2u2_arena(memory, 4096);
    for (int step = 0; step < STEPS + BLOCKS; step++) {
        dice = dice * 1664525u + 1013904223u;
        size_t k = step < STEPS ? (dice >> 8) % BLOCKS : (size_t)(step - STEPS), size = (dice >> 16) % 300;
        size_t kept = all[k].size < size ? all[k].size : size;
        for (size_t i = 0; i < all[k].size; i++) CHECK(all[k].at[i] == (uint8_t)(k + 1));
        if (all[k].at && (step >= STEPS || dice >> 31)) {
            r2u2_dealloc(all[k].at);
            all[k].at = NULL;
            all[k].size = 0;
            continue;
        }
        if (step >= STEPS) continue;
        if (!all[k].at) all[k].align = (size_t)1 << (dice >> 24) % 7;
        struct r2u2_block block = all[k].at ? r2u2_realloc(all[k].at, kept, size, all[k].align) : r2u2_alloc(size, all[k].align);
        if (!block.ok) continue;
        all[k].at = block.at;
        all[k].size = size;
        CHECK((uintptr_t)block.at % all[k].align == 0 && r2u2_arena_used() <= 4096);
        for (size_t i = 0; i < kept; i++) CHECK(all[k].at[i] == (uint8_t)(k + 1));
        memset(all[k].at, (int)(k + 1), size);
    }
    CHECK(r2u2_arena_used() == 0);
}

/* A block without bytes at the end of its pool is freed there, also while another pool is in use, which begins there. */
static void empty_block_at_the_end(void) {
    static struct r2u2_pool full, other;
    uint8_t before[64];
    r2u2_arena(NULL, 0);
    r2u2_pool_make(&full, memory, HEAD);
    r2u2_pool_make(&other, memory + HEAD, 256);
    r2u2_pool_use(&full);
    struct r2u2_block empty = r2u2_alloc(0, 1);
    CHECK(empty.ok && empty.at == memory + HEAD && r2u2_pool_used(&full) == HEAD);
    r2u2_pool_use(&other);
    struct r2u2_block block = r2u2_alloc(8, 8);
    memcpy(before, memory + HEAD, sizeof before);
    CHECK(block.ok && !r2u2_realloc(empty.at, 0, 8, 8).ok);
    r2u2_dealloc(empty.at);
    CHECK(r2u2_pool_used(&full) == 0 && r2u2_pool_used(&other) > 0);
    CHECK(memcmp(before, memory + HEAD, sizeof before) == 0);
    r2u2_dealloc(block.at);
    CHECK(r2u2_pool_used(&other) == 0);
    r2u2_pool_make(&full, NULL, 0);
    r2u2_pool_make(&other, NULL, 0);
}

/* The header of a program of version 1 that has `count` bytes only if sums wrap at 32 bits isn't that of a program, and none of
 * the instructions that it counts is read. */
static void counts_that_wrap(void) {
    uint8_t program[64] = {'M', 'L', 'T', 'L', 1};
    for (size_t part = 15; part <= 23; part += 4) {
        program[part] = 0x20; /* 2^29 instructions, of 24 bytes each: 3 * 2^32 */
        CHECK(r2u2_open_bytes(program, 32) == 0 && r2u2_open_under_bytes(program, 32, "#a", 2) == 0);
        program[part] = 0;
    }
    CHECK(r2u2_open_bytes(program, 31) == 0 && r2u2_open_bytes(program, 0) == 0);
    CHECK(r2u2_open_bytes(program, 32) > 0 && r2u2_open_under_bytes(program, 32, "#a,b", 4) > r2u2_open_bytes(program, 32));
}

#ifndef WITHOUT_LIBRARY
/* Opens a program, takes one row of zeros, and closes. */
static uint32_t run(const uint8_t *program, size_t count, const char *header) {
    static const int64_t zeros[64];
    struct r2u2 it = {0};
    struct r2u2_fault fault = {0};
    struct r2u2_row_fault why = {0};
    uint32_t code = header ? r2u2_open_under(&it, program, count, header, strlen(header), &fault)
                           : r2u2_open(&it, program, count, &fault);
    if (code) return code;
    size_t used = r2u2_arena_used();
    code = r2u2_row(&it, zeros, r2u2_width(&it), &why);
    CHECK(r2u2_arena_used() == used);
    r2u2_close(&it);
    return code;
}

/* An array of as many bytes as were used at most is enough, and one of fewer bytes is not. */
static void least_array(const uint8_t *program, size_t count, const char *header) {
    r2u2_arena(memory, sizeof memory);
    CHECK(run(program, count, header) == R2U2_DONE && r2u2_arena_used() == 0);
    size_t most = r2u2_arena_most();
    for (size_t size = 0; size <= most; size++) {
        r2u2_arena(memory, size);
        CHECK(run(program, count, header) == (size < most ? R2U2_NO_MEMORY : R2U2_DONE));
        CHECK(r2u2_arena_used() == 0);
    }
    printf("bytes of an arena%s: %zu\n", header ? " under a header" : "", most);
}

/* Two monitors with a pool each: a full pool leaves the other one alone, and blocks are freed where they came from. */
static void two_pools(const uint8_t *program, size_t count) {
    static struct r2u2_pool first, second;
    struct r2u2 one = {0}, other = {0};
    struct r2u2_fault fault = {0};
    r2u2_arena(memory, 0);
    r2u2_pool_make(&first, memory, 8192);
    r2u2_pool_make(&second, memory + 8192, 512);
    r2u2_pool_use(&second);
    CHECK(r2u2_open(&other, program, count, &fault) == R2U2_NO_MEMORY && r2u2_pool_used(&second) == 0);
    CHECK(r2u2_pool_used(&first) == 0 && r2u2_pool_most(&first) == 0);
    r2u2_pool_use(&first);
    CHECK(r2u2_open(&one, program, count, &fault) == R2U2_DONE && r2u2_pool_used(&second) == 0);
    r2u2_pool_make(&second, memory + 8192, 8192);
    r2u2_pool_use(&second);
    CHECK(r2u2_open(&other, program, count, &fault) == R2U2_DONE);
    CHECK(r2u2_pool_used(&first) == r2u2_pool_used(&second) && r2u2_pool_used(&first) > 0);
    r2u2_close(&one);
    CHECK(r2u2_pool_used(&first) == 0 && r2u2_pool_used(&second) > 0);
    r2u2_pool_use(&first);
    r2u2_close(&other);
    CHECK(r2u2_pool_used(&second) == 0 && r2u2_pool_most(&first) == r2u2_pool_most(&second));
}

static int with_library(int count, char **words) {
    static uint8_t program[4096];
    FILE *file = count == 2 ? fopen(words[1], "rb") : NULL;
    size_t size = file ? fread(program, 1, sizeof program, file) : 0;
    if (!file || fclose(file)) return fprintf(stderr, "usage: arena_test examples/embed/grant.bin\n"), 1;
    least_array(program, size, NULL);
    least_array(program, size, "#request,grant");
    two_pools(program, size);
    return 0;
}
#else
static int with_library(int count, char **words) { return (void)count, (void)words, 0; }
#endif

int main(int count, char **words) {
    for (size_t from = 0; from < 64; from++) aligned_blocks(from);
    growing_blocks();
    no_room();
    free_blocks();
    any_blocks();
    empty_block_at_the_end();
    counts_that_wrap();
    if (with_library(count, words)) return 1;
    printf("%d checks, %d failed\n", checks, failed);
    return failed != 0;
}
