/* The edge of what a caller may do: each code, each fault, each allocation refused, calls in any order. Run it with the
 * compiler's sanitizers; the last line says how many checks held. Not every code: 2^40 rows take too long. */
#include <pthread.h>
#include <stdatomic.h>
#include <stddef.h>
#include <stdio.h>
#include <stdlib.h>

#include "faulty.h"
#include "r2u2_checked.h"
#include "r2u2_port.h"

/* The heap, which counts, and refuses the block that it is asked to refuse. */
static atomic_long asked, held, held_bytes, refused = -1;

/* The head of each block. */
union head {
    size_t bytes;
    max_align_t aligned;
};

static struct r2u2_block found(void *at) {
    static char nothing;
    return at ? (struct r2u2_block){true, at} : (struct r2u2_block){false, &nothing};
}

/* Counts a block of `size` bytes, if there is one. */
static struct r2u2_block counted(union head *block, size_t size) {
    if (!block) return found(NULL);
    block->bytes = size;
    held_bytes += (long)size;
    return found(block + 1);
}

struct r2u2_block r2u2_alloc(size_t size, size_t align) {
    (void)align;
    if (asked++ == refused) return found(NULL);
    union head *block = malloc(sizeof *block + size);
    if (block) held++;
    return counted(block, size);
}

struct r2u2_block r2u2_realloc(void *old, size_t kept, size_t size, size_t align) {
    (void)kept, (void)align;
    union head *block = (union head *)old - 1;
    long before = (long)block->bytes;
    if (asked++ == refused) return found(NULL);
    block = realloc(block, sizeof *block + size);
    if (block) held_bytes -= before;
    return counted(block, size);
}

void r2u2_dealloc(void *old) {
    union head *block = (union head *)old - 1;
    held--;
    held_bytes -= (long)block->bytes;
    free(block);
}

static atomic_int checks, failed;

#define CHECK(claim) check(claim, #claim, __LINE__)

static void check(bool holds, const char *claim, int line) {
    checks++;
    if (holds) return;
    failed++;
    fprintf(stderr, "misuse.c:%d: not so: %s\n", line, claim);
}

static struct image grant;
static const char HEADER[] = "# request,grant";
/* Of the first example: the delay of its output, and the most reports of a row: its best delay is that of the request, 0 rows. */
enum { GRANT_DELAY = 3, GRANT_REPORTS = 4 };
/* The most steps of a row: four for each slot of an instruction of future time and of its larger operand and for two more, where
 * the queues of the seven instructions have 4, 1, 1, 4, 4, 4 and 4 slots; two for each of the two of the Booleanizer, for the
 * output and for each report; one for each of two columns; and three. */
enum { GRANT_STEPS = 4 * (6 + 3 + 3 + 7 + 10 + 10 + 10) + 2 * (2 + 1 + GRANT_REPORTS) + 2 + 3 };
static const int64_t ROWS[6][2] = {{1, 0}, {0, 1}, {1, 0}, {0, 0}, {0, 0}, {0, 0}};

static uint32_t open_grant(struct r2u2 *it) {
    struct r2u2_fault fault = {0};
    return r2u2_open(it, grant.bytes, grant.count, &fault);
}

static uint32_t take(struct r2u2 *it, const int64_t *numbers, size_t count) {
    struct r2u2_row_fault fault = {0};
    return r2u2_row(it, numbers, count, &fault);
}

/* The reports of the six rows, as one number for each time; 1 is true. */
static void watch_six(struct r2u2 *it) {
    struct r2u2_report report = {0};
    uint64_t time = 0;
    for (size_t i = 0; i < 6; i++) {
        CHECK(take(it, ROWS[i], 2) == R2U2_DONE);
        while (r2u2_next(it, R2U2_EACH, &report) == R2U2_DONE) {
            CHECK(report.time == time && report.output == 0);
            CHECK(report.word == (time == 2 ? R2U2_FALSE : R2U2_TRUE));
            time++;
        }
    }
    CHECK(time == 6);
}

static void closed_ones_answer(struct r2u2 *it) {
    struct r2u2_report report = {7, 8, 9};
    struct r2u2_row_fault fault = {5, 6};
    char name[64] = "x";
    CHECK(r2u2_row(it, ROWS[0], 2, &fault) == R2U2_NOT_OPEN && fault.why == 5 && fault.column == 6);
    CHECK(r2u2_next(it, R2U2_EACH, &report) == R2U2_NOT_OPEN);
    CHECK(r2u2_reset(it) == R2U2_NOT_OPEN && it->at == NULL);
    CHECK(report.time == 7 && report.output == 8 && report.word == 9);
    uint32_t column = 3, kind = 4;
    CHECK(r2u2_width(it) == 0 && r2u2_outputs(it) == 0 && r2u2_rows(it) == 0);
    CHECK(r2u2_delay(it, 0) == 0 && r2u2_steps(it) == 0 && r2u2_signals(it) == 0);
    CHECK(r2u2_most_reports(it) == 0 && r2u2_output_kind(it, 0) == 0);
    CHECK(r2u2_name(it, 0, name, sizeof name) == 0 && name[0] == 'x');
    CHECK(r2u2_signal(it, 0, &column, &kind, name, sizeof name) == 0 && name[0] == 'x' && column == 3 && kind == 4);
}

static void calls_of_a_closed_one(void) {
    struct r2u2 it = {0};
    closed_ones_answer(&it);
    r2u2_close(&it);
    CHECK(open_grant(&it) == R2U2_DONE);
    r2u2_close(&it);
    CHECK(it.at == NULL);
    closed_ones_answer(&it);
    r2u2_close(&it);
    CHECK(it.at == NULL && held == 0);
    r2u2_close(NULL);
}

/* What the queries by number return can be kept, as much as there is room for. */
static void kept_copies(void) {
    struct r2u2 it = {0};
    struct r2u2_fault fault = {0};
    struct r2u2_kept_output outputs[2] = {{{1}, 2, 3}, {{1}, 2, 3}};
    struct r2u2_kept_signal signals[2] = {{{1}, 2, 3}, {{1}, 2, 3}};
    CHECK(r2u2_keep_outputs(&it, outputs, 2) == 0 && r2u2_keep_signals(&it, signals, 2) == 0 && outputs[0].delay == 2);
    CHECK(r2u2_open_under(&it, grant.bytes, grant.count, "#grant,other,request", 20, &fault) == R2U2_DONE);
    CHECK(r2u2_keep_outputs(&it, outputs, 0) == 1 && r2u2_keep_signals(&it, signals, 0) == 2 && signals[0].kind == 3);
    CHECK(r2u2_keep_outputs(&it, outputs, 2) == 1 && r2u2_keep_signals(&it, signals, 1) == 2);
    CHECK(strcmp(outputs[0].name, "granted") == 0 && outputs[0].delay == GRANT_DELAY && outputs[0].kind == R2U2_FORMULA);
    CHECK(strcmp(signals[0].name, "request") == 0 && signals[0].column == 2 && signals[0].kind == R2U2_TRUTH);
    CHECK(outputs[1].delay == 2 && signals[1].column == 2 && signals[1].name[0] == 1);
    CHECK(r2u2_keep_signals(&it, signals, 2) == 2 && strcmp(signals[1].name, "grant") == 0 && signals[1].column == 0);
    r2u2_close(&it);
    CHECK(held == 0);
}

static void opened_twice(void) {
    struct r2u2 it = {0};
    struct r2u2_fault fault = {0};
    CHECK(open_grant(&it) == R2U2_DONE);
    long before = asked;
    CHECK(open_grant(&it) == R2U2_ALREADY_OPEN);
    CHECK(r2u2_open_under(&it, grant.bytes, grant.count, HEADER, strlen(HEADER), &fault) == R2U2_ALREADY_OPEN);
    CHECK(fault.kind == 0 && asked == before);
    watch_six(&it);
    r2u2_close(&it);
    CHECK(held == 0);
}

/* What takes no row leaves the monitor as it was. */
static void rows_that_dont_fit(void) {
    static const struct {
        int64_t numbers[3];
        size_t count;
        uint32_t column;
    } all[] = {{{0}, 0, 0},    {{1}, 1, 1},      {{1, 0, 0}, 3, 2},
               {{2, 0}, 2, 0}, {{0, -1}, 2, 1},  {{INT64_MAX, INT64_MIN}, 2, 0}};
    struct r2u2 it = {0};
    CHECK(open_grant(&it) == R2U2_DONE);
    for (size_t i = 0; i < sizeof all / sizeof *all; i++) {
        struct r2u2_row_fault fault = {0};
        CHECK(r2u2_row(&it, all[i].numbers, all[i].count, &fault) == R2U2_NOT_A_ROW);
        CHECK(fault.why == R2U2_NOT_A_ROW && fault.column == all[i].column);
    }
    watch_six(&it);
    r2u2_close(&it);
}

static void reports_left(void) {
    struct r2u2 it = {0};
    struct r2u2_report report = {0};
    struct r2u2_row_fault fault = {0};
    CHECK(open_grant(&it) == R2U2_DONE);
    CHECK(r2u2_next(&it, R2U2_EACH, &report) == R2U2_NO_REPORT);
    CHECK(take(&it, ROWS[0], 2) == R2U2_DONE && take(&it, ROWS[1], 2) == R2U2_DONE);
    CHECK(r2u2_row(&it, ROWS[2], 2, &fault) == R2U2_REPORTS_LEFT);
    CHECK(fault.why == R2U2_REPORTS_LEFT && fault.column == 0);
    CHECK(r2u2_next(&it, R2U2_RUNS, &report) == R2U2_DONE && report.time == 1);
    CHECK(r2u2_next(&it, R2U2_RUNS, &report) == R2U2_NO_REPORT);
    CHECK(take(&it, ROWS[2], 2) == R2U2_DONE);
    r2u2_close(&it);
    CHECK(held == 0);
}

/* A monitor is reset at any time, also with reports left, and doesn't allocate; then it is as if just opened. */
static void begun_again(void) {
    struct r2u2 it = {0};
    struct r2u2_report report = {0};
    CHECK(open_grant(&it) == R2U2_DONE);
    long before = asked, blocks = held;
    CHECK(r2u2_reset(&it) == R2U2_DONE && it.at != NULL);
    for (size_t i = 0; i <= 6; i++) {
        for (size_t k = 0; k < i; k++) {
            CHECK(take(&it, ROWS[k], 2) == R2U2_DONE);
            while (k + 1 < i && r2u2_next(&it, R2U2_RUNS, &report) == R2U2_DONE) {}
        }
        CHECK(r2u2_rows(&it) == i && r2u2_reset(&it) == R2U2_DONE && r2u2_rows(&it) == 0);
        CHECK(r2u2_next(&it, R2U2_EACH, &report) == R2U2_NO_REPORT);
        watch_six(&it);
        CHECK(r2u2_reset(&it) == R2U2_DONE);
    }
    CHECK(asked == before && held == blocks);
    r2u2_close(&it);
    CHECK(held == 0);
}

/* A buffer that is too short is left alone; a longer one has a zero byte after the name, and keeps its rest. */
static void names(void) {
    struct r2u2 it = {0};
    char name[9] = "........";
    CHECK(open_grant(&it) == R2U2_DONE);
    CHECK(r2u2_width(&it) == 2 && r2u2_outputs(&it) == 1);
    CHECK(r2u2_name(&it, 0, name, 6) == 0 && r2u2_name(&it, 1, name, 8) == 0 && r2u2_name(&it, 0, name, 0) == 0);
    CHECK(memcmp(name, "........", 9) == 0);
    CHECK(r2u2_name(&it, 0, name, 7) == 7 && memcmp(name, "granted.", 9) == 0);
    name[8] = '.';
    CHECK(r2u2_name(&it, 0, name, 9) == 7 && memcmp(name, "granted\0.", 9) == 0);
    r2u2_close(&it);
}

/* Queries: signals in order of declaration, their columns, rows, the worst-case delay and the steps. */
static void queries(void) {
    struct r2u2 it = {0};
    struct r2u2_fault fault = {0};
    uint32_t column = 7, kind = 7;
    char name[9] = "........";
    CHECK(r2u2_version() == R2U2_VERSION);
    CHECK(r2u2_open_under(&it, grant.bytes, grant.count, "#grant,other,request", 20, &fault) == R2U2_DONE);
    long before = asked;
    CHECK(r2u2_width(&it) == 3 && r2u2_signals(&it) == 2);
    CHECK(r2u2_signal(&it, 2, &column, &kind, name, 9) == 0 && r2u2_signal(&it, 0, &column, &kind, name, 6) == 0);
    CHECK(column == 7 && kind == 7 && memcmp(name, "........", 9) == 0);
    CHECK(r2u2_signal(&it, 0, &column, &kind, name, 7) == 7 && memcmp(name, "request.", 9) == 0);
    CHECK(column == 2 && kind == R2U2_TRUTH);
    CHECK(r2u2_signal(&it, 1, &column, &kind, name, 9) == 5 && memcmp(name, "grant\0t.", 9) == 0);
    CHECK(column == 0 && kind == R2U2_TRUTH);
    CHECK(r2u2_delay(&it, 0) == GRANT_DELAY && r2u2_delay(&it, 1) == 0 && r2u2_delay(&it, UINT32_MAX) == 0);
    CHECK(r2u2_steps(&it) == GRANT_STEPS + 1 && r2u2_most_reports(&it) == GRANT_REPORTS); /* one column more */
    CHECK(r2u2_output_kind(&it, 0) == R2U2_FORMULA && r2u2_output_kind(&it, 1) == 0);
    CHECK(r2u2_rows(&it) == 0 && take(&it, (int64_t[]){1, 9, 0}, 3) == R2U2_DONE && r2u2_rows(&it) == 1);
    CHECK(asked == before);
    r2u2_close(&it);
    CHECK(held == 0);
}

/* Reports by one call are those of single calls, with any room; past them nothing is written. */
static void many_reports(void) {
    static const struct r2u2_report mark = {7, 8, 9};
    struct r2u2 one = {0}, many = {0};
    struct r2u2_report reports[GRANT_REPORTS + 1], next = {0};
    size_t count = 5;
    CHECK(r2u2_next_many(&many, R2U2_EACH, reports, 0, &count) == R2U2_NOT_OPEN && count == 5);
    for (size_t room = 0; room <= GRANT_REPORTS; room++) {
        CHECK(open_grant(&one) == R2U2_DONE && open_grant(&many) == R2U2_DONE);
        for (size_t i = 0; i < 6; i++) {
            uint32_t style = i % 2 != 0 ? R2U2_RUNS : R2U2_EACH;
            CHECK(take(&one, ROWS[i], 2) == R2U2_DONE && take(&many, ROWS[i], 2) == R2U2_DONE);
            do {
                for (size_t k = 0; k <= GRANT_REPORTS; k++) reports[k] = mark;
                CHECK(r2u2_next_many(&many, style, reports, room, &count) == R2U2_DONE && count <= room);
                for (size_t k = 0; k < count; k++)
                    CHECK(r2u2_next(&one, style, &next) == R2U2_DONE && memcmp(&reports[k], &next, sizeof next) == 0);
                for (size_t k = count; k <= GRANT_REPORTS; k++) CHECK(memcmp(&reports[k], &mark, sizeof mark) == 0);
            } while (room != 0 && count == room);
            while (room == 0 && r2u2_next(&many, style, &next) == R2U2_DONE) r2u2_next(&one, style, &next);
            CHECK(r2u2_next(&one, style, &next) == R2U2_NO_REPORT && r2u2_next(&many, style, &next) == R2U2_NO_REPORT);
        }
        r2u2_close(&one);
        r2u2_close(&many);
    }
    CHECK(held == 0);
}

/* Rows of an array, as many as there may be: those of the first example again and again. */
enum { MANY_ROWS = 24 };
static int64_t many_numbers[MANY_ROWS][2];

/* Compares one call, which took rows up to `end` from `begin`, with single calls. */
static void same_as_single(struct r2u2 *one, uint32_t style, size_t begin, size_t end, const struct r2u2_report *reports, size_t count) {
    struct r2u2_report next = {0};
    size_t told = 0;
    for (size_t i = begin; i < end; i++) {
        CHECK(take(one, many_numbers[i], 2) == R2U2_DONE);
        while (r2u2_next(one, style, &next) == R2U2_DONE) {
            CHECK(told < count && memcmp(&reports[told], &next, sizeof next) == 0);
            told++;
        }
    }
    CHECK(told == count && r2u2_rows(one) == end);
}

/* All rows by as few calls as the room allows: no call stops while there is room for what one row may bring. */
static void rows_with_room(uint32_t style, size_t room) {
    static const struct r2u2_report mark = {7, 8, 9};
    struct r2u2 one = {0}, many = {0};
    struct r2u2_report reports[4 * GRANT_REPORTS];
    struct r2u2_batch batch = {5, 6};
    struct r2u2_row_fault fault = {3, 4};
    CHECK(open_grant(&one) == R2U2_DONE && open_grant(&many) == R2U2_DONE);
    for (size_t i = 0; i < MANY_ROWS; i += batch.rows) {
        for (size_t k = 0; k < 4 * GRANT_REPORTS; k++) reports[k] = mark;
        CHECK(r2u2_row_many(&many, style, many_numbers[i], 2 * (MANY_ROWS - i), reports, room, &batch, &fault) == R2U2_DONE);
        CHECK(batch.rows > 0 && batch.reports <= room && r2u2_rows(&many) == i + batch.rows);
        CHECK(i + batch.rows == MANY_ROWS || room - batch.reports < GRANT_REPORTS);
        same_as_single(&one, style, i, i + batch.rows, reports, batch.reports);
        for (size_t k = batch.reports; k < 4 * GRANT_REPORTS; k++) CHECK(memcmp(&reports[k], &mark, sizeof mark) == 0);
        if (batch.rows == 0) break;
    }
    CHECK(r2u2_row_many(&many, style, many_numbers[0], 0, reports, room, &batch, &fault) == R2U2_DONE);
    CHECK(batch.rows == 0 && batch.reports == 0 && fault.why == 3 && fault.column == 4);
    r2u2_close(&one);
    r2u2_close(&many);
}

/* A row that isn't taken ends a batch before it, and is refused as a single one where it is the first. */
static void rows_up_to_a_fault(void) {
    struct r2u2 it = {0};
    struct r2u2_report reports[4 * MANY_ROWS];
    for (size_t bad = 0; bad < 6; bad++) {
        struct r2u2_batch batch = {5, 6};
        struct r2u2_row_fault fault = {3, 4};
        int64_t numbers[6][2];
        memcpy(numbers, ROWS, sizeof numbers);
        numbers[bad][1] = 2;
        CHECK(open_grant(&it) == R2U2_DONE);
        if (bad > 0) {
            CHECK(r2u2_row_many(&it, R2U2_EACH, numbers[0], 12, reports, 4 * MANY_ROWS, &batch, &fault) == R2U2_DONE);
            CHECK(batch.rows == bad && fault.why == 3 && r2u2_rows(&it) == bad);
            batch = (struct r2u2_batch){5, 6};
        }
        CHECK(r2u2_row_many(&it, R2U2_EACH, numbers[bad], 12 - 2 * bad, reports, 4 * MANY_ROWS, &batch, &fault) == R2U2_NOT_A_ROW);
        CHECK(fault.why == R2U2_NOT_A_ROW && fault.column == 1 && batch.rows == 5 && batch.reports == 6);
        CHECK(r2u2_row_many(&it, R2U2_EACH, ROWS[0], 1, reports, 4 * MANY_ROWS, &batch, &fault) == R2U2_NOT_A_ROW && fault.column == 1);
        CHECK(r2u2_rows(&it) == bad);
        r2u2_close(&it);
    }
    CHECK(held == 0);
}

/* Many rows by one call are those of single calls, with each room; with too little room none is taken, nor before reports that
 * are left, nor of a monitor that isn't open. */
static void many_rows(void) {
    struct r2u2 it = {0};
    struct r2u2_report reports[2 * GRANT_REPORTS] = {{7, 8, 9}};
    struct r2u2_batch batch = {5, 6};
    struct r2u2_row_fault fault = {3, 4};
    for (size_t i = 0; i < MANY_ROWS; i++) memcpy(many_numbers[i], ROWS[i % 6], sizeof *many_numbers);
    CHECK(r2u2_row_many(&it, R2U2_EACH, ROWS[0], 12, reports, 8, &batch, &fault) == R2U2_NOT_OPEN && fault.why == 3);
    for (size_t room = GRANT_REPORTS; room <= 4 * GRANT_REPORTS; room++) {
        rows_with_room(R2U2_EACH, room);
        rows_with_room(R2U2_RUNS, room);
    }
    rows_up_to_a_fault();
    CHECK(open_grant(&it) == R2U2_DONE);
    long before = asked;
    for (size_t room = 0; room < GRANT_REPORTS; room++)
        CHECK(r2u2_row_many(&it, R2U2_EACH, ROWS[0], 12, reports, room, &batch, &fault) == R2U2_NO_ROOM);
    CHECK(batch.rows == 5 && fault.why == 3 && reports[0].time == 7 && r2u2_rows(&it) == 0);
    CHECK(take(&it, ROWS[1], 2) == R2U2_DONE);
    CHECK(r2u2_row_many(&it, R2U2_EACH, ROWS[0], 12, reports, 8, &batch, &fault) == R2U2_REPORTS_LEFT);
    CHECK(fault.why == R2U2_REPORTS_LEFT && batch.rows == 5 && reports[0].time == 7 && r2u2_rows(&it) == 1);
    CHECK(asked == before);
    r2u2_close(&it);
    CHECK(held == 0);
}

/* The SHA-256 of the first example, as `sha256sum examples/embed/grant.bin` prints it. */
static const uint8_t GRANT_DIGEST[R2U2_DIGEST_BYTES] = {
    0xed, 0xe8, 0x7a, 0xa9, 0xae, 0xa7, 0x94, 0xe4, 0x88, 0x1f, 0xd8, 0xc0, 0xb9, 0x7a, 0xf9, 0x55,
    0x84, 0x6e, 0x2c, 0x97, 0x91, 0xcd, 0x21, 0x55, 0x9c, 0xab, 0x35, 0xdc, 0xff, 0x32, 0x00, 0xb9};

/* A program that differs in one bit from that of the digest is never opened, and neither is one with another digest. */
static void digests(void) {
    struct r2u2 it = {0};
    struct r2u2_fault fault = {0};
    CHECK(r2u2_open_checked(&it, grant.bytes, grant.count, GRANT_DIGEST, &fault) == R2U2_DONE);
    CHECK(r2u2_open_checked(&it, grant.bytes, 3, GRANT_DIGEST, &fault) == R2U2_ALREADY_OPEN);
    watch_six(&it);
    r2u2_close(&it);
    for (size_t bit = 0; bit < 8 * grant.count; bit++) {
        struct image image = grant;
        image.bytes[bit / 8] ^= (uint8_t)(1u << (bit % 8));
        CHECK(r2u2_open_checked(&it, image.bytes, image.count, GRANT_DIGEST, &fault) == R2U2_DAMAGED && it.at == NULL);
    }
    for (size_t bit = 0; bit < 8 * sizeof GRANT_DIGEST; bit++) {
        uint8_t other[sizeof GRANT_DIGEST];
        memcpy(other, GRANT_DIGEST, sizeof other);
        other[bit / 8] ^= (uint8_t)(1u << (bit % 8));
        CHECK(r2u2_open_checked(&it, grant.bytes, grant.count, other, &fault) == R2U2_DAMAGED);
    }
    CHECK(fault.kind == 0 && held == 0);
}

static void each_kind_of_fault(void) {
    static struct faulty all[32];
    size_t count = faulty_ones(&grant, all);
    CHECK(count == R2U2_FAULT_TWICE);
    for (size_t i = 0; i < count; i++) {
        struct r2u2 it = {0};
        struct r2u2_fault fault = {0};
        const struct faulty *one = &all[i];
        uint32_t code = one->is_under ? r2u2_open_under(&it, one->image.bytes, one->image.count, one->header,
                                                        one->header_count, &fault)
                                      : r2u2_open(&it, one->image.bytes, one->image.count, &fault);
        CHECK(code == R2U2_REFUSED && it.at == NULL && held == 0);
        CHECK(one->kind == i + 1 && fault.kind == one->kind);
        CHECK(fault.part == one->part && fault.place == one->place);
        CHECK(fault.text[0] && memchr(fault.text, 0, sizeof fault.text));
        if (fault.kind != one->kind || fault.part != one->part || fault.place != one->place)
            fprintf(stderr, "kind %u: told %u, part %u, place %llu: %s\n", one->kind, fault.kind, fault.part,
                    (unsigned long long)fault.place, fault.text);
    }
}

/* Each number of r2u2.h has a text, and others have none. */
static void texts(void) {
    CHECK(strcmp(r2u2_code_text(R2U2_NO_REPORT), "no report") == 0 && strcmp(r2u2_code_text(11), "unknown") == 0);
    CHECK(strcmp(r2u2_code_text(R2U2_DAMAGED), "damaged") == 0 && strcmp(r2u2_code_text(R2U2_NO_ROOM), "no room") == 0);
    CHECK(strcmp(r2u2_word_text(R2U2_VERIFIED), "verified") == 0 && strcmp(r2u2_word_text(5), "unknown") == 0);
    CHECK(strcmp(r2u2_fault_kind_text(R2U2_FAULT_TWICE), "name twice") == 0);
    CHECK(strcmp(r2u2_fault_kind_text(R2U2_FAULT_TWICE + 1), "unknown") == 0);
    for (uint32_t kind = R2U2_FAULT_SHORT; kind <= R2U2_FAULT_TWICE; kind++) CHECK(r2u2_fault_kind_text(kind)[0] != 0);
}

/* Each program that differs from the first example in one byte, and each that is cut, is opened or refused. */
static void any_byte(void) {
    static const uint8_t others[] = {1, 0x80, 0xff};
    for (size_t at = 0; at < 3 * grant.count; at++) {
        struct image image = grant;
        struct r2u2 it = {0};
        struct r2u2_fault fault = {0};
        image.bytes[at / 3] ^= others[at % 3];
        uint32_t code = r2u2_open(&it, image.bytes, image.count, &fault);
        CHECK(code == R2U2_DONE || (code == R2U2_REFUSED && fault.kind));
        r2u2_close(&it);
        CHECK(r2u2_open(&it, grant.bytes, at / 3, &fault) == R2U2_REFUSED && fault.kind == R2U2_FAULT_SHORT);
        CHECK(it.at == NULL && held == 0);
    }
}

/* Each block in turn is refused: opening says so, holds nothing, and works afterward. */
static void each_block_refused(bool is_under) {
    struct r2u2 it = {0};
    struct r2u2_fault fault = {0};
    uint32_t code = R2U2_NO_MEMORY;
    long k = 0;
    for (; code == R2U2_NO_MEMORY; k++) {
        refused = asked + k;
        code = is_under ? r2u2_open_under(&it, grant.bytes, grant.count, HEADER, strlen(HEADER), &fault)
                        : open_grant(&it);
        CHECK(code == R2U2_DONE || (code == R2U2_NO_MEMORY && it.at == NULL && held == 0));
    }
    refused = -1;
    CHECK(code == R2U2_DONE && fault.kind == 0);
    long before = asked;
    watch_six(&it);
    CHECK(asked == before);
    r2u2_close(&it);
    CHECK(held == 0);
    printf("blocks asked for%s: %ld\n", is_under ? " under a header" : "", k - 1);
}

/* The same of r2u2_bytes, which returns nothing then. */
static void each_block_refused_to_bytes(void) {
    struct r2u2_fault fault = {0};
    uint64_t bytes = 7;
    uint32_t code = R2U2_NO_MEMORY;
    long k = 0;
    for (; code == R2U2_NO_MEMORY; k++) {
        refused = asked + k;
        code = r2u2_bytes(grant.bytes, grant.count, &bytes, &fault);
        CHECK(held == 0 && (code == R2U2_DONE ? bytes != 7 : code == R2U2_NO_MEMORY && bytes == 7));
    }
    refused = -1;
    CHECK(code == R2U2_DONE && fault.kind == 0);
    printf("blocks asked for to count the bytes: %ld\n", k - 1);
}

static void moved(void) {
    struct r2u2 here = {0}, there;
    CHECK(open_grant(&here) == R2U2_DONE);
    CHECK(take(&here, ROWS[0], 2) == R2U2_DONE);
    there = here;
    memset(&here, 0, sizeof here);
    CHECK(take(&there, ROWS[1], 2) == R2U2_DONE);
    r2u2_close(&there);
    r2u2_close(&here);
    CHECK(held == 0);
}

static void *in_a_thread(void *unused) {
    for (int i = 0; i < 200; i++) {
        struct r2u2 it = {0};
        CHECK(open_grant(&it) == R2U2_DONE);
        watch_six(&it);
        r2u2_close(&it);
    }
    return unused;
}

static void two_threads(void) {
    pthread_t threads[2];
    for (int i = 0; i < 2; i++) CHECK(pthread_create(&threads[i], NULL, in_a_thread, NULL) == 0);
    for (int i = 0; i < 2; i++) CHECK(pthread_join(threads[i], NULL) == 0);
    CHECK(held == 0);
}

/* An open monitor holds the bytes that r2u2_bytes returned, in at most R2U2_BLOCKS blocks, from its opening on. */
static void bytes_that_are_told(void) {
    struct r2u2 it = {0};
    struct r2u2_fault fault = {0};
    uint64_t bytes = 7;
    CHECK(r2u2_bytes(grant.bytes, grant.count - 1, &bytes, &fault) == R2U2_REFUSED);
    CHECK(bytes == 7 && fault.kind == R2U2_FAULT_SHORT && held == 0);
    CHECK(r2u2_bytes(grant.bytes, grant.count, &bytes, &fault) == R2U2_DONE && held == 0 && held_bytes == 0);
    CHECK(open_grant(&it) == R2U2_DONE && held_bytes == (long)bytes && held <= R2U2_BLOCKS);
    watch_six(&it);
    CHECK(held_bytes == (long)bytes);
    r2u2_close(&it);
    CHECK(held == 0 && held_bytes == 0);
    CHECK(r2u2_open_under(&it, grant.bytes, grant.count, "#grant,other,request", 20, &fault) == R2U2_DONE);
    CHECK(held_bytes == (long)bytes + 9);
    r2u2_close(&it);
    CHECK(r2u2_checked_bytes(grant.bytes, grant.count, NULL, NULL) == R2U2_BAD_ARGUMENT);
    CHECK(r2u2_checked_bytes(NULL, 0, &bytes, NULL) == R2U2_REFUSED && held == 0);
}

static void *run_and_close(void *it) {
    watch_six(it);
    r2u2_close(it);
    return NULL;
}

/* One thread opens a monitor, and another takes rows and closes it. */
static void handed_over(void) {
    struct r2u2 it = {0};
    pthread_t thread;
    CHECK(open_grant(&it) == R2U2_DONE);
    CHECK(pthread_create(&thread, NULL, run_and_close, &it) == 0 && pthread_join(thread, NULL) == 0);
    CHECK(it.at == NULL && held == 0);
}

/* Rows by one call, behind tests: a monitor with one row and no report left stays as it is. */
static void checked_rows(struct r2u2 *it) {
    struct r2u2_report reports[GRANT_REPORTS];
    struct r2u2_batch batch = {5, 6};
    struct r2u2_row_fault fault = {3, 4};
    int64_t numbers[2] = {0, 2};
    CHECK(r2u2_checked_row_many(it, R2U2_EACH, NULL, 2, reports, 4, &batch, NULL) == R2U2_BAD_ARGUMENT);
    CHECK(r2u2_checked_row_many(it, R2U2_EACH, numbers, 2, NULL, 4, &batch, NULL) == R2U2_BAD_ARGUMENT);
    CHECK(r2u2_checked_row_many(it, R2U2_EACH, numbers, 2, reports, 4, NULL, NULL) == R2U2_BAD_ARGUMENT);
    CHECK(r2u2_checked_row_many(it, 2, numbers, 2, reports, 4, &batch, NULL) == R2U2_BAD_ARGUMENT);
    CHECK(r2u2_checked_row_many(it, R2U2_EACH, numbers, 2, (struct r2u2_report *)(void *)numbers, 1, &batch, NULL) == R2U2_BAD_ARGUMENT);
    CHECK(r2u2_checked_row_many(it, R2U2_EACH, numbers, 2, reports, 4, (struct r2u2_batch *)(void *)numbers, NULL) == R2U2_BAD_ARGUMENT);
    CHECK(r2u2_checked_row_many(it, R2U2_EACH, numbers, 2, reports, 4, (struct r2u2_batch *)(void *)reports, NULL) == R2U2_BAD_ARGUMENT);
    CHECK(r2u2_checked_row_many(it, R2U2_EACH, numbers, 2, reports, 4, &batch, (struct r2u2_row_fault *)(void *)&batch) == R2U2_BAD_ARGUMENT);
    CHECK(r2u2_checked_row_many(it, R2U2_EACH, numbers, 2, reports, 4, &batch, (struct r2u2_row_fault *)(void *)it) == R2U2_BAD_ARGUMENT);
    static _Alignas(16) uint8_t odd[64];
    CHECK(r2u2_checked_row_many(it, R2U2_EACH, numbers, 2, reports, 4, (struct r2u2_batch *)(void *)(odd + 1), NULL) == R2U2_BAD_ARGUMENT);
    CHECK(r2u2_checked_row_many(it, R2U2_EACH, numbers, 2, reports, 4, (struct r2u2_batch *)(void *)(odd + 4), NULL) == R2U2_BAD_ARGUMENT);
    CHECK(batch.rows == 5 && fault.why == 3 && it->at != NULL);
    CHECK(r2u2_checked_row_many(it, R2U2_EACH, NULL, 0, NULL, 0, &batch, NULL) == R2U2_NO_ROOM && batch.rows == 5);
    CHECK(r2u2_checked_row_many(it, R2U2_EACH, NULL, 0, reports, 4, &batch, &fault) == R2U2_DONE && batch.rows == 0 && fault.why == 3);
    CHECK(r2u2_checked_row_many(it, R2U2_EACH, numbers, 2, reports, 4, &batch, &fault) == R2U2_NOT_A_ROW);
    CHECK(fault.why == R2U2_NOT_A_ROW && fault.column == 1 && reports[0].time == 0);
}

/* The checked wrappers say of each bad argument that it is one, and else do what they wrap. */
static void wrappers(void) {
    struct r2u2 it = {0};
    struct r2u2_report report = {0};
    struct r2u2_row_fault fault = {0};
    char name[16];
    memset(name, '.', sizeof name);
    CHECK(r2u2_checked_open(NULL, grant.bytes, grant.count, NULL) == R2U2_BAD_ARGUMENT);
    CHECK(r2u2_checked_open(&it, NULL, 1, NULL) == R2U2_BAD_ARGUMENT);
    CHECK(r2u2_checked_open(&it, grant.bytes, SIZE_MAX, NULL) == R2U2_BAD_ARGUMENT);
    CHECK(r2u2_checked_open(&it, NULL, 0, NULL) == R2U2_REFUSED);
    CHECK(r2u2_checked_open(&it, grant.bytes, grant.count, (struct r2u2_fault *)(void *)&it) == R2U2_BAD_ARGUMENT);
    CHECK(r2u2_checked_open(&it, grant.bytes, grant.count, (struct r2u2_fault *)(void *)grant.bytes) == R2U2_BAD_ARGUMENT);
    CHECK(it.at == NULL);
    CHECK(r2u2_checked_open_under(&it, grant.bytes, grant.count, NULL, 1, NULL) == R2U2_BAD_ARGUMENT);
    CHECK(r2u2_checked_open_under(&it, grant.bytes, grant.count, HEADER, strlen(HEADER), NULL) == R2U2_DONE);
    CHECK(r2u2_checked_row(NULL, ROWS[0], 2, NULL) == R2U2_BAD_ARGUMENT);
    CHECK(r2u2_checked_row(&it, NULL, 2, NULL) == R2U2_BAD_ARGUMENT);
    CHECK(r2u2_checked_row(&it, (const int64_t *)(const void *)((const char *)ROWS + 1), 1, NULL) == R2U2_BAD_ARGUMENT);
    CHECK(r2u2_checked_row(&it, NULL, 0, &fault) == R2U2_NOT_A_ROW && fault.column == 0);
    CHECK(r2u2_checked_row(&it, ROWS[1], 2, (struct r2u2_row_fault *)(void *)&it) == R2U2_BAD_ARGUMENT && it.at != NULL);
    CHECK(r2u2_checked_row(&it, ROWS[1], 2, (struct r2u2_row_fault *)(void *)(uintptr_t)ROWS[1]) == R2U2_BAD_ARGUMENT);
    CHECK(r2u2_checked_row(&it, ROWS[1], 2, NULL) == R2U2_DONE);
    CHECK(r2u2_checked_next(&it, 2, &report) == R2U2_BAD_ARGUMENT);
    CHECK(r2u2_checked_next(&it, R2U2_EACH, NULL) == R2U2_BAD_ARGUMENT);
    CHECK(r2u2_checked_next(&it, R2U2_EACH, &report) == R2U2_DONE && report.word == R2U2_TRUE);
    struct r2u2_report reports[2];
    size_t told = 7;
    CHECK(r2u2_checked_next_many(&it, R2U2_EACH, NULL, 1, &told) == R2U2_BAD_ARGUMENT && told == 7);
    CHECK(r2u2_checked_next_many(&it, R2U2_EACH, reports, 2, NULL) == R2U2_BAD_ARGUMENT);
    CHECK(r2u2_checked_next_many(&it, R2U2_EACH, reports, SIZE_MAX, &told) == R2U2_BAD_ARGUMENT);
    CHECK(r2u2_checked_next_many(&it, R2U2_EACH, reports, 2, (size_t *)(void *)&reports[1]) == R2U2_BAD_ARGUMENT);
    CHECK(r2u2_checked_next_many(&it, R2U2_EACH, reports, 2, (size_t *)(void *)&it) == R2U2_BAD_ARGUMENT);
    CHECK(r2u2_checked_next_many(&it, R2U2_EACH, (struct r2u2_report *)(void *)&it, 1, &told) == R2U2_BAD_ARGUMENT);
    CHECK(r2u2_checked_next_many(&it, 2, reports, 2, &told) == R2U2_BAD_ARGUMENT && told == 7);
    CHECK(r2u2_checked_next_many(&it, R2U2_EACH, NULL, 0, &told) == R2U2_DONE && told == 0);
    CHECK(r2u2_checked_next_many(&it, R2U2_EACH, reports, 2, &told) == R2U2_DONE && told == 0 && reports[1].word == 0);
    checked_rows(&it);
    CHECK(r2u2_checked_name(&it, 0, NULL, 9) == 0 && r2u2_checked_name(&it, 0, name, 7) == 0 && name[0] == '.');
    CHECK(r2u2_checked_name(&it, 0, name, sizeof name) == 7 && memcmp(name, "granted", 8) == 0);
    CHECK(r2u2_checked_width(NULL) == 0 && r2u2_checked_outputs(NULL) == 0 && r2u2_checked_rows(NULL) == 0);
    CHECK(r2u2_checked_most_reports(NULL) == 0 && r2u2_checked_output_kind(NULL, 0) == 0);
    CHECK(r2u2_checked_delay(NULL, 0) == 0 && r2u2_checked_steps(NULL) == 0 && r2u2_checked_signals(NULL) == 0);
    CHECK(r2u2_checked_width(&it) == 2 && r2u2_checked_outputs(&it) == 1 && r2u2_checked_rows(&it) == 1);
    CHECK(r2u2_checked_most_reports(&it) == GRANT_REPORTS && r2u2_checked_output_kind(&it, 0) == R2U2_FORMULA);
    CHECK(r2u2_checked_delay(&it, 0) == GRANT_DELAY && r2u2_checked_steps(&it) == GRANT_STEPS);
    uint32_t column = 7, kind = 7;
    CHECK(r2u2_checked_signals(&it) == 2 && r2u2_checked_signal(&it, 1, NULL, NULL, name, sizeof name) == 5);
    CHECK(r2u2_checked_signal(&it, 0, &column, &kind, name, 7) == 0 && column == 7 && kind == 7);
    CHECK(r2u2_checked_signal(&it, 0, &column, &column, name, sizeof name) == 0 && column == 7);
    CHECK(r2u2_checked_signal(&it, 0, &column, &kind, NULL, 8) == 0 && r2u2_checked_signal(NULL, 0, &column, &kind, name, 8) == 0);
    CHECK(r2u2_checked_signal(&it, 0, &column, &kind, name, 8) == 7 && memcmp(name, "request", 8) == 0);
    CHECK(column == 0 && kind == R2U2_TRUTH);
    CHECK(r2u2_checked_signal_named(&it, "grant", &column, NULL) == 2 && column == 1);
    CHECK(r2u2_checked_signal_named(&it, "gran", &column, NULL) == 0 && r2u2_checked_signal_named(&it, NULL, NULL, NULL) == 0);
    CHECK(r2u2_checked_signal_named(&it, "request", NULL, &kind) == 1 && kind == R2U2_TRUTH);
    CHECK(r2u2_checked_reset(NULL) == R2U2_BAD_ARGUMENT && r2u2_checked_rows(&it) == 1);
    CHECK(r2u2_checked_reset(&it) == R2U2_DONE && r2u2_checked_rows(&it) == 0);
    r2u2_checked_close(&it);
    CHECK(r2u2_checked_open_under(&it, grant.bytes, grant.count, HEADER, sizeof HEADER, NULL) == R2U2_DONE);
    r2u2_checked_close(&it);
    CHECK(r2u2_checked_open_checked(&it, grant.bytes, grant.count, NULL, NULL) == R2U2_BAD_ARGUMENT);
    CHECK(r2u2_checked_open_checked(&it, grant.bytes, grant.count, (const uint8_t *)(const void *)&it, NULL) == R2U2_BAD_ARGUMENT);
    CHECK(r2u2_checked_open_checked(&it, NULL, 0, GRANT_DIGEST, NULL) == R2U2_DAMAGED);
    CHECK(r2u2_checked_open_checked(&it, grant.bytes, grant.count, GRANT_DIGEST, NULL) == R2U2_DONE);
    r2u2_checked_close(&it);
    r2u2_checked_close(NULL);
    CHECK(held == 0);
}

int main(int count, char **words) {
    FILE *file = count == 2 ? fopen(words[1], "rb") : NULL;
    grant.count = file ? fread(grant.bytes, 1, sizeof grant.bytes, file) : 0;
    if (!file || fclose(file)) return fprintf(stderr, "usage: misuse examples/embed/grant.bin\n"), 1;
    calls_of_a_closed_one();
    kept_copies();
    opened_twice();
    rows_that_dont_fit();
    reports_left();
    begun_again();
    names();
    queries();
    many_reports();
    many_rows();
    digests();
    each_kind_of_fault();
    texts();
    any_byte();
    each_block_refused(false);
    each_block_refused(true);
    each_block_refused_to_bytes();
    moved();
    two_threads();
    handed_over();
    bytes_that_are_told();
    wrappers();
    printf("%d checks, %d failed\n", (int)checks, (int)failed);
    return failed != 0;
}
