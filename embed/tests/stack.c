/* Measures the stack of each call: runs it on a separate array, and counts the bytes that it wrote, in words of 8.
 * stack PROGRAM.. prints it of the first of these programs, and the most over all of them with the program that took it; a
 * program of version 2 is opened under a header too. */
#define _DEFAULT_SOURCE
#include <stdio.h>
#include <stdlib.h>
#include <string.h>
#include <ucontext.h>

#include "r2u2.h"

enum { WORDS = 1 << 14, MOST_COLUMNS = 65536 };

static const uint64_t PAINT = 0xa5a5a5a5a5a5a5a5;

static _Alignas(64) uint64_t stack[WORDS];
static ucontext_t here, there;
static void (*running)(void);

static struct r2u2 it;
static struct r2u2_fault fault;
static struct r2u2_row_fault row_fault;
static struct r2u2_report report, reports[4], *row_reports;
static struct r2u2_batch batch;
static uint8_t digest[R2U2_DIGEST_BYTES];
static uint8_t *program;
static size_t count, told;
static char header[1 << 16], name[64];
static size_t header_count;
static int64_t numbers[MOST_COLUMNS];
static uint32_t width, code, column, kind;
static uint64_t number;

static void nothing(void) {}
static void tell_bytes(void) { code = r2u2_bytes(program, count, &number, &fault); }
static void open_it(void) { code = r2u2_open(&it, program, count, &fault); }
static void open_under(void) { code = r2u2_open_under(&it, program, count, header, header_count, &fault); }
static void open_checked(void) { code = r2u2_open_checked(&it, program, count, digest, &fault); }
static void widths(void) { width = r2u2_width(&it); }
static void outputs(void) { code = r2u2_outputs(&it); }
static void names(void) { code = r2u2_name(&it, 0, name, sizeof name); }
static void rows(void) { number = r2u2_rows(&it); }
static void delays(void) { code = r2u2_delay(&it, 0); }
static void steps(void) { number = r2u2_steps(&it); }
static void most_reports(void) { number = r2u2_most_reports(&it); }
static void output_kind(void) { code = r2u2_output_kind(&it, 0); }
static void signals(void) { code = r2u2_signals(&it); }
static void one_signal(void) { code = r2u2_signal(&it, 0, &column, &kind, name, sizeof name); }
static void version(void) { code = r2u2_version(); }
static void row(void) { code = r2u2_row(&it, numbers, width, &row_fault); }
static void next(void) { code = r2u2_next(&it, R2U2_EACH, &report); }
static void next_run(void) { code = r2u2_next(&it, R2U2_RUNS, &report); }
static void next_many(void) { code = r2u2_next_many(&it, R2U2_EACH, reports, 4, &told); }
static void row_many(void) { code = r2u2_row_many(&it, R2U2_EACH, numbers, width, row_reports, r2u2_most_reports(&it), &batch, &row_fault); }
static void reset(void) { code = r2u2_reset(&it); }
static void close_it(void) {
    r2u2_close(&it);
    code = R2U2_DONE;
}

static void run(void) { running(); }

/* How many bytes of the stack this call writes. */
static size_t stack_of(void (*call)(void)) {
    size_t left = 0;
    memset(stack, 0xa5, sizeof stack);
    running = call;
    getcontext(&there);
    there.uc_stack.ss_sp = stack;
    there.uc_stack.ss_size = sizeof stack;
    there.uc_link = &here;
    makecontext(&there, run, 0);
    swapcontext(&here, &there);
    while (left < WORDS && stack[left] == PAINT) left++;
    return sizeof stack - left * sizeof *stack;
}

enum {
    OPEN, OPEN_UNDER, OPEN_CHECKED, BYTES, WIDTH, OUTPUTS, ROWS, NAME, DELAY, STEPS, MOST_REPORTS, OUTPUT_KIND, SIGNALS, SIGNAL, VERSION, ROW, NEXT, NEXT_MANY, ROW_MANY, RESET, CLOSE, CALLS
};
static const char *const NAMES[CALLS] = {
    "r2u2_open",  "r2u2_open_under", "r2u2_open_checked", "r2u2_bytes",  "r2u2_width",   "r2u2_outputs", "r2u2_rows", "r2u2_name",  "r2u2_delay",
    "r2u2_steps", "r2u2_most_reports", "r2u2_output_kind", "r2u2_signals", "r2u2_signal", "r2u2_version", "r2u2_row",
    "r2u2_next",  "r2u2_next_many", "r2u2_row_many", "r2u2_reset", "r2u2_close"};
static size_t first[CALLS], most[CALLS], base;
static const char *path, *deepest[CALLS];

static void measure(int which, void (*call)(void)) {
    size_t bytes = stack_of(call) - base;
    if (deepest[which] && bytes <= most[which]) return;
    most[which] = bytes;
    deepest[which] = path;
}

/* The header that names the stored signals in their order, which is that of their columns. */
static void make_header(void) {
    uint32_t words[10];
    memcpy(words, program, sizeof words);
    size_t at = 40 + 24 * ((size_t)words[3] + words[4] + words[5] + words[6]);
    size_t names_at = at + 8 * (size_t)words[8] + words[7];
    header_count = 1;
    header[0] = '#';
    for (uint32_t i = 0; i < words[8]; i++) {
        size_t length = program[at + 8 * i + 5];
        if (i) header[header_count++] = ',';
        memcpy(header + header_count, program + names_at, length);
        header_count += length;
        names_at += length;
    }
}

static void watch(void) {
    row_reports = calloc(r2u2_most_reports(&it), sizeof *row_reports);
    if (!row_reports) exit(fprintf(stderr, "stack: no memory for %s\n", path) > 0);
    measure(WIDTH, widths);
    measure(OUTPUTS, outputs);
    measure(ROWS, rows);
    measure(NAME, names);
    measure(DELAY, delays);
    measure(STEPS, steps);
    measure(MOST_REPORTS, most_reports);
    measure(OUTPUT_KIND, output_kind);
    measure(SIGNALS, signals);
    measure(SIGNAL, one_signal);
    measure(VERSION, version);
    for (uint32_t i = 0; i < 200; i++) {
        for (uint32_t k = 0; k < width; k++) numbers[k] = (int64_t)(i * 7 + k * 3) % 5 == 0;
        if (i % 3 == 2) measure(ROW_MANY, row_many);
        else measure(ROW, row);
        if (code) exit(fprintf(stderr, "stack: row %u: code %u\n", i, code) > 0);
        do {
            measure(NEXT, i % 2 ? next : next_run);
            measure(NEXT_MANY, next_many);
        } while (told == 4);
    }
    free(row_reports);
    measure(RESET, reset);
    measure(CLOSE, close_it);
}

static int read_program(void) {
    static uint8_t bytes[1 << 24];
    FILE *file = fopen(path, "rb");
    program = bytes;
    count = file ? fread(bytes, 1, sizeof bytes, file) : 0;
    return file ? fclose(file) : -1;
}

/* Reads the digest of the program at `path`; 0 where it was read. */
static int read_digest(void) {
    char command[4096];
    snprintf(command, sizeof command, "sha256sum '%s'", path);
    FILE *printed = popen(command, "r");
    if (!printed) return -1;
    for (size_t i = 0; i < sizeof digest; i++)
        if (fscanf(printed, "%2hhx", &digest[i]) != 1) break;
    return pclose(printed);
}

/* Measures the calls over the program at `path`; 0 where it was opened and run. */
static int measure_program(void) {
    if (read_program() || read_digest()) return fprintf(stderr, "stack: cannot read %s\n", path), 6;
    measure(BYTES, tell_bytes);
    measure(OPEN, open_it);
    if (code) return fprintf(stderr, "stack: %s: code %u %s\n", path, code, fault.text), (int)code;
    watch();
    measure(OPEN_CHECKED, open_checked);
    if (code) return fprintf(stderr, "stack: %s: code %u %s\n", path, code, fault.text), (int)code;
    watch();
    if (program[4] != 2) return 0;
    make_header();
    measure(OPEN_UNDER, open_under);
    if (code) return fprintf(stderr, "stack: %s: code %u %s\n", path, code, fault.text), (int)code;
    watch();
    return 0;
}

int main(int words, char **paths) {
    base = stack_of(nothing);
    for (int i = 1; i < words; i++) {
        path = paths[i];
        int status = measure_program();
        if (status) return status;
        if (i == 1) memcpy(first, most, sizeof first);
    }
    for (int i = 0; i < CALLS; i++)
        printf("%-17s %6zu bytes, and %6zu for %s\n", NAMES[i], first[i], most[i], deepest[i]);
    return 0;
}
