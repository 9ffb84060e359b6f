/* Programs with one fault each, spelled byte by byte as docs/reference/formats.md says, and headers with one. For misuse.c. */
#ifndef R2U2_FAULTY_H
#define R2U2_FAULTY_H

#include <stdbool.h>
#include <stddef.h>
#include <stdint.h>
#include <string.h>

#include "r2u2.h"

enum { MOST = 4096, AT = 40, EACH = 24, LONGEST = 65536 };

/* Opcodes that the programs below use. */
enum { COLUMN = 1, CONST = 3, MUL = 7, DIV = 8, LOAD = 0x11, AND = 0x13, UNTIL = 0x14 };

struct image {
    uint8_t bytes[MOST];
    size_t count;
};

/* A faulty program or header, and what a call says of it. */
struct faulty {
    uint32_t kind, part;
    uint64_t place;
    struct image image;
    bool is_under;
    const char *header;
    size_t header_count;
};

static void put32(struct image *image, size_t at, uint32_t number) {
    for (size_t i = 0; i < 4; i++) image->bytes[at + i] = (uint8_t)(number >> 8 * i);
}

static void add32(struct image *image, uint32_t number) {
    put32(image, image->count, number);
    image->count += 4;
}

/* An instruction: its opcode, operands, interval and size. */
static void add(struct image *image, uint32_t opcode, uint32_t left, uint32_t right, uint32_t low, uint32_t high) {
    const uint32_t words[] = {opcode, left, right, low, high, 0};
    for (size_t i = 0; i < 6; i++) add32(image, words[i]);
}

/* The header of a program of version 1 over one column, with these numbers of instructions and one output. */
static struct image begun(uint32_t bz, uint32_t ft) {
    struct image image = {{'M', 'L', 'T', 'L', 1}, 8};
    const uint32_t words[] = {1, bz, ft, 0, 1, 1};
    for (size_t i = 0; i < 6; i++) add32(&image, words[i]);
    return image;
}

/* The same with its one output, named o, of future time. */
static struct image ended(struct image image, uint32_t output) {
    const uint32_t words[] = {0x30, output, 0, 1, 0, 0};
    for (size_t i = 0; i < 6; i++) add32(&image, words[i]);
    image.bytes[image.count++] = 'o';
    return image;
}

/* A column, a constant, and an operation on them or on the column and itself. */
static struct image arithmetic(uint32_t opcode, uint32_t times) {
    struct image image = begun(2 + times, 1);
    add(&image, COLUMN, 0, 0, 0, 0);
    add(&image, CONST, 0, 0, 0, 0);
    for (uint32_t i = 0; i < times; i++) add(&image, opcode, i ? i + 1 : 0, opcode == DIV ? 1 : 0, 0, 0);
    add(&image, LOAD, 2, 0, 0, 0);
    return ended(image, 0);
}

/* A truth, untils of the greatest interval one over the other, and both of them at once. */
static struct image deep(uint32_t untils) {
    struct image image = begun(1, untils + 2);
    add(&image, 2, 0, 0, 0, 0);
    add(&image, LOAD, 0, 0, 0, 0);
    for (uint32_t i = 0; i < untils; i++) add(&image, UNTIL, i, i, 0, 1048576);
    add(&image, AND, 0, untils, 0, 0);
    return ended(image, untils + 1);
}

/* The program of the first example with one byte changed. */
static struct image with_byte(const struct image *grant, size_t at, uint8_t byte) {
    struct image image = *grant;
    image.bytes[at] = byte;
    return image;
}

/* The same with four bytes. */
static struct image with_number(const struct image *grant, size_t at, uint32_t number) {
    struct image image = *grant;
    put32(&image, at, number);
    return image;
}

/* Where a word of instruction k of the first example is: 0 the opcode, 1 and 2 operands, 3 and 4 interval, 5 size. The
 * first two instructions are of the Booleanizer. */
static size_t word_at(size_t k, size_t word) { return AT + EACH * k + 4 * word; }

/* Each kind of fault once, in the order of the kinds. The program is that of the first example. */
static size_t faulty_ones(const struct image *grant, struct faulty *into) {
    enum { UNTIL_AT = 5, OUTPUT_AT = 9, NAMES_AT = AT + EACH * 10 + 16 };
    static char long_header[LONGEST];
    struct image shorter = *grant, longer = *grant, old = deep(0);
    shorter.count--;
    longer.count++;
    memset(long_header, '#', sizeof long_header);
    put32(&old, word_at(1, 5) - 8, 1);
    put32(&old, word_at(2, 5) - 8, 1);
    const struct faulty all[] = {
        {R2U2_FAULT_SHORT, 0, 0, shorter, false, "", 0},
        {R2U2_FAULT_MAGIC, 0, 0, with_byte(grant, 0, 'X'), false, "", 0},
        {R2U2_FAULT_VERSION, 0, 0, with_byte(grant, 4, 3), false, "", 0},
        {R2U2_FAULT_RESERVED, 0, 6, with_byte(grant, 6, 1), false, "", 0},
        {R2U2_FAULT_OPCODE, 0, AT, with_byte(grant, AT, LOAD), false, "", 0},
        {R2U2_FAULT_TRAILING, 0, 0, longer, false, "", 0},
        {R2U2_FAULT_NAME_BYTES, 0, 0, with_byte(grant, NAMES_AT, '-'), false, "", 0},
        {R2U2_FAULT_SIGNAL_BYTES, 0, 1, with_byte(grant, grant->count - 1, '-'), false, "", 0},
        {R2U2_FAULT_WIDTH, 0, 0, with_number(grant, 8, 65537), false, "", 0},
        {R2U2_FAULT_SIGNAL, 0, 1, with_byte(grant, NAMES_AT - 8, 0), false, "", 0},
        {R2U2_FAULT_OPERAND, 2, 2, with_number(grant, word_at(4, 1), 9), false, "", 0},
        {R2U2_FAULT_INTERVAL, 2, 3, with_number(grant, word_at(UNTIL_AT, 3), 4), false, "", 0},
        {R2U2_FAULT_DIVISOR, 0, 2, arithmetic(DIV, 1), false, "", 0},
        {R2U2_FAULT_RANGE, 0, 3, arithmetic(MUL, 2), false, "", 0},
        {R2U2_FAULT_TOO_LATE, 0, 17, deep(17), false, "", 0},
        {R2U2_FAULT_OUTPUT, 0, 0, with_number(grant, word_at(OUTPUT_AT, 1), 7), false, "", 0},
        {R2U2_FAULT_SIZE, 2, 3, with_number(grant, word_at(UNTIL_AT, 5), 5), false, "", 0},
        {R2U2_FAULT_TOO_MANY_SLOTS, 0, 0, deep(16), false, "", 0},
        {R2U2_FAULT_NO_SIGNALS, 0, 0, old, true, "#request,grant", 14},
        {R2U2_FAULT_LONG_HEADER, 0, 0, *grant, true, long_header, LONGEST},
        {R2U2_FAULT_NO_HEADER, 0, 0, *grant, true, "request,grant", 13},
        {R2U2_FAULT_MISSING, 0, 0, *grant, true, "#request", 8},
        {R2U2_FAULT_TWICE, 0, 0, *grant, true, "#request,grant,grant", 20},
    };
    memcpy(into, all, sizeof all);
    return sizeof all / sizeof *all;
}

#endif
