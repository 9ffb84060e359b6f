/* bytes PROGRAM..: checks of each program that r2u2_bytes returns to the byte what its monitor holds, and that arrays of
 * r2u2_open_bytes and r2u2_open_under_bytes suffice for that and to open it, the second under each of eleven headers.
 * Prints what the arena needs: for its blocks, with what opening left free between them, and the bytes that suffice. */
#include <stdio.h>

#define r2u2_alloc arena_alloc
#define r2u2_realloc arena_realloc
#define r2u2_dealloc arena_dealloc
#include "../src/arena.c"
#undef r2u2_alloc
#undef r2u2_realloc
#undef r2u2_dealloc

#include "r2u2.h"

struct r2u2_block r2u2_alloc(size_t size, size_t align);
struct r2u2_block r2u2_realloc(void *old, size_t kept, size_t size, size_t align);
void r2u2_dealloc(void *old);

enum { MOST_HELD = 1 << 17, MOST_WIDTH = 65536, MOST_HEADER = 65535 };

static _Alignas(64) uint8_t memory[1 << 27];
static uint8_t program[(1 << 24) + 1];
static const int64_t zeros[MOST_WIDTH];

/* The blocks that are held, with what was asked for. */
static struct {
    void *at;
    size_t size;
} held[MOST_HELD];
static size_t calls;

/* The last place that is in use, and one more. */
static size_t end;

/* Finds the place of a block, the newest first; a new place for null. */
static size_t place_of(const void *at) {
    if (!at) return end < MOST_HELD ? end++ : MOST_HELD - 1;
    size_t k = end;
    while (k > 0 && held[k - 1].at != at) k--;
    return k ? k - 1 : MOST_HELD - 1;
}

static struct r2u2_block keep(size_t k, struct r2u2_block found, size_t size) {
    calls++;
    if (found.ok) {
        held[k].at = found.at;
        held[k].size = size;
    }
    return found;
}

struct r2u2_block r2u2_alloc(size_t size, size_t align) { return keep(place_of(NULL), arena_alloc(size, align), size); }

struct r2u2_block r2u2_realloc(void *old, size_t kept, size_t size, size_t align) {
    return keep(place_of(old), arena_realloc(old, kept, size, align), size);
}

void r2u2_dealloc(void *old) {
    calls++;
    held[place_of(old)].at = NULL;
    while (end && !held[end - 1].at) end--;
    arena_dealloc(old);
}

/* What is held: the blocks, the bytes that were asked for, and the bytes with what the arena adds to each block. */
struct sum {
    size_t blocks, bytes, whole;
};

static struct sum sum_of_held(void) {
    struct sum sum = {0, 0, 0};
    for (size_t k = 0; k < end; k++) {
        if (!held[k].at) continue;
        sum.blocks++;
        sum.bytes += held[k].size;
        sum.whole += sizeof(struct r2u2_head) + (held[k].size + UNIT - 1) / UNIT * UNIT;
    }
    return sum;
}

static size_t read_program(const char *name) {
    FILE *file = fopen(name, "rb");
    size_t count = file ? fread(program, 1, sizeof program, file) : 0;
    if (file) fclose(file);
    return count;
}

/* Whether the number that r2u2_bytes returns for a program is what its monitor holds from its opening to its closing. */
static bool is_told(const char *name) {
    struct r2u2 it = {0};
    struct r2u2_fault fault = {0};
    struct r2u2_row_fault why = {0};
    struct r2u2_report report;
    uint64_t told = 0;
    size_t count = read_program(name);
    size_t enough = r2u2_open_bytes(program, count);
    if (enough > sizeof memory) return false;
    r2u2_arena(memory, enough);
    if (r2u2_bytes(program, count, &told, &fault) != R2U2_DONE || sum_of_held().blocks || program_pool.used) return false;
    if (r2u2_open(&it, program, count, &fault) != R2U2_DONE) return false;
    struct sum opened = sum_of_held();
    size_t most = program_pool.most, before = calls;
    for (int row = 0; row < 100; row++) {
        if (r2u2_row(&it, zeros, r2u2_width(&it), &why) != R2U2_DONE) return false;
        while (r2u2_next(&it, R2U2_EACH, &report) == R2U2_DONE) continue;
    }
    bool is_so = told == opened.bytes && opened.blocks <= R2U2_BLOCKS && calls == before;
    r2u2_close(&it);
    printf("%s: %zu bytes in %zu blocks, %zu in the arena, which needs %zu, and %zu suffice\n", name, opened.bytes,
           opened.blocks, opened.whole, most, enough);
    return is_so && sum_of_held().blocks == 0 && program_pool.used == 0;
}

static char header[MOST_HEADER + 1];
static size_t header_count;

/* Adds text to the header, unless it gets too long. Returns whether it fits. */
static bool add(const char *text) {
    size_t length = strlen(text);
    bool fits = length <= MOST_HEADER - header_count;
    if (fits) memcpy(header + header_count, text, length);
    if (fits) header_count += length;
    return fits;
}

/* Makes a header of the program's signals, quoted or not, after `count` other fields: empty ones, new names in ascending or
 * descending order, long names, or names that all occur twice. Fewer fields if they get too long. */
enum others { EMPTY, ASCENDING, DESCENDING, LONG, TWICE };

static void make_header(struct r2u2 *it, bool is_quoted, enum others others, size_t count) {
    char text[R2U2_NAME_BYTES + 8];
    uint32_t column, kind, signals = r2u2_signals(it);
    header_count = 0;
    add("#");
    for (uint32_t k = 0; k < signals; k++) {
        char name[R2U2_NAME_BYTES] = {0};
        r2u2_signal(it, k, &column, &kind, name, sizeof name);
        snprintf(text, sizeof text, is_quoted ? "%s\"%s\"" : "%s%s", k ? "," : "", name);
        add(text);
    }
    for (size_t k = 0; k < count; k++) {
        size_t number = others == DESCENDING ? count - k : others == TWICE ? k / 2 : k;
        snprintf(text, sizeof text, others == EMPTY ? "," : others == LONG ? ",other%059zu" : ",other%zu", number);
        if (!add(text)) break;
    }
}

static int headers, failed_headers;
static double most_times, least_times = 1e9;

/* Whether an array of r2u2_open_under_bytes suffices under the header. */
static bool suffices(size_t count) {
    struct r2u2 it = {0};
    struct r2u2_fault fault = {0};
    size_t enough = r2u2_open_under_bytes(program, count, header, header_count);
    if (enough > sizeof memory) return false;
    r2u2_arena(memory, enough);
    if (r2u2_open_under(&it, program, count, header, header_count, &fault) != R2U2_DONE) return false;
    double times = (double)enough / (double)program_pool.most;
    r2u2_close(&it);
    if (times > most_times) most_times = times;
    if (times < least_times) least_times = times;
    return program_pool.used == 0;
}

/* Tries a program of version 2 under headers. */
static bool is_enough_under_headers(const char *name) {
    static const struct { bool is_quoted; enum others others; size_t count; } all[] = {
        {false, EMPTY, 0}, {true, EMPTY, 0}, {false, ASCENDING, 1}, {false, ASCENDING, 100}, {false, ASCENDING, 2000},
        {false, DESCENDING, 2000}, {false, TWICE, 2000}, {false, LONG, 1000}, {false, EMPTY, 2000}, {false, EMPTY, 65536},
        {false, ASCENDING, 65536}};
    struct r2u2 it = {0};
    struct r2u2_fault fault = {0};
    size_t count = read_program(name);
    bool all_suffice = true;
    for (size_t k = 0; k < sizeof all / sizeof *all; k++) {
        r2u2_arena(memory, sizeof memory);
        if (r2u2_open(&it, program, count, &fault) != R2U2_DONE) return false;
        uint32_t signals = r2u2_signals(&it);
        make_header(&it, all[k].is_quoted, all[k].others, all[k].count);
        r2u2_close(&it);
        if (signals == 0) return true;
        headers++;
        if (suffices(count)) continue;
        failed_headers++;
        all_suffice = false;
        fprintf(stderr, "bytes: %s: header %zu: not enough\n", name, k);
    }
    return all_suffice;
}

int main(int count, char **names) {
    int failed = 0;
    for (int k = 1; k < count; k++)
        if (!is_told(names[k]) || !is_enough_under_headers(names[k])) {
            failed++;
            fprintf(stderr, "bytes: %s: not so\n", names[k]);
        }
    printf("%d programs, %d failed; %d headers, %d failed", count - 1, failed, headers, failed_headers);
    if (headers) printf("; %.1f to %.1f times what was needed", least_times, most_times);
    printf("\n");
    return failed != 0;
}
