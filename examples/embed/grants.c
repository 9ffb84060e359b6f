/* Watches a trace with the monitor as a library: grants PROGRAM TRACE prints what `r2u2 PROGRAM TRACE` does, and reads
 * rows by the same rules. */
#include <stdio.h>
#include <string.h>

#include "r2u2.h"

enum { MOST_PROGRAM = 16777216, MOST_LINE = 65535, MOST_COLUMNS = 65536 };

/* The numbers that stand for a field that isn't an integer, and for one that is too large: no column that is read can hold
 * these, and any other column may hold anything. */
static const int64_t NO_NUMBER = INT64_MAX, TOO_LARGE = INT64_MAX - 1;

static uint8_t program[MOST_PROGRAM + 1];
static char line[MOST_LINE + 1];
static int64_t numbers[MOST_COLUMNS];

/* Reads a file, and returns the number of its bytes; 0 if it can't be read. */
static size_t read_program(const char *name) {
    FILE *file = fopen(name, "rb");
    size_t count = file ? fread(program, 1, sizeof program, file) : 0;
    if (file) fclose(file);
    return count;
}

/* The outcome of reading a line of the trace. */
enum got { GOT_LINE, GOT_END, GOT_TOO_MUCH };

/* Reads the next line, without its end. */
static enum got read_line(FILE *trace, size_t *count) {
    int c;
    *count = 0;
    while ((c = getc(trace)) != EOF && c != '\n') {
        if (*count == MOST_LINE) return GOT_TOO_MUCH;
        line[(*count)++] = (char)c;
    }
    if (c == '\n' && *count && line[*count - 1] == '\r') --*count;
    return c == EOF && *count == 0 ? GOT_END : GOT_LINE;
}

static int is_space(char c) { return c == ' ' || c == '\t'; }

static int is_blank(size_t count) {
    for (size_t i = 0; i < count; i++)
        if (!is_space(line[i])) return 0;
    return 1;
}

/* The number that these bytes spell: digits after an optional sign, with spaces and tabs around them. */
static int64_t number_of(const char *from, const char *end) {
    int64_t number = 0;
    while (from < end && is_space(*from)) from++;
    while (from < end && is_space(end[-1])) end--;
    int is_below = from < end && *from == '-';
    if (from < end && (*from == '-' || *from == '+')) from++;
    if (from == end) return NO_NUMBER;
    for (; from < end; from++) {
        if (*from < '0' || *from > '9') return NO_NUMBER;
        number = number < INT32_MAX ? 10 * number + (*from - '0') : TOO_LARGE;
    }
    return is_below && number != TOO_LARGE ? -number : number;
}

/* Reads the fields of the line, at most `width`, and returns how many there are. */
static size_t read_row(size_t count, size_t width) {
    const char *from = line, *end = line + count;
    size_t fields = 0;
    while (fields < width) {
        const char *comma = memchr(from, ',', (size_t)(end - from));
        numbers[fields++] = number_of(from, comma ? comma : end);
        if (!comma) break;
        from = comma + 1;
    }
    return fields;
}

/* Prints the reports of the last row. */
static void print_reports(struct r2u2 *monitor) {
    struct r2u2_report report = {0};
    while (r2u2_next(monitor, R2U2_EACH, &report) == R2U2_DONE) {
        char name[64] = {0};
        int length = (int)r2u2_name(monitor, report.output, name, sizeof name);
        printf("%.*s:%llu,%s\n", length, name, (unsigned long long)report.time, r2u2_word_text(report.word));
    }
}

/* Says what is wrong with a line of the trace. */
static int faulty(unsigned long long number, const char *what) {
    fprintf(stderr, "grants: trace line %llu: %s\n", number, what);
    return 4;
}

static int not_a_row(unsigned long long number, uint32_t column, int is_short) {
    char what[64];
    if (is_short) return faulty(number, "too few fields");
    const char *why = numbers[column] == NO_NUMBER ? "not a whole number" : "out of range";
    snprintf(what, sizeof what, "%s in column %u", why, column + 1);
    return faulty(number, what);
}

/* Takes the rows of the trace, and prints their reports. `got` is the outcome of reading the first line, which has number 1. */
static int watch(struct r2u2 *monitor, FILE *trace, enum got got, size_t count, int is_header) {
    uint32_t width = r2u2_width(monitor);
    struct r2u2_row_fault fault = {0};
    for (unsigned long long number = 1; got != GOT_END; number++, got = read_line(trace, &count)) {
        if (got == GOT_TOO_MUCH) return faulty(number, "line too long");
        if ((is_header && number == 1) || is_blank(count)) continue;
        size_t fields = read_row(count, width);
        uint32_t code = r2u2_row(monitor, numbers, fields, &fault);
        if (code == R2U2_NOT_A_ROW) return not_a_row(number, fault.column, fields < width);
        if (code != R2U2_DONE) return fputs("grants: trace longer than the mission time\n", stderr), 5;
        print_reports(monitor);
    }
    return 0;
}

/* Opens the program, under the first line of the trace if that is a header and the program has names of signals. */
static int open_monitor(struct r2u2 *monitor, size_t size, size_t count, int is_header) {
    struct r2u2_fault fault = {0};
    uint32_t code = is_header ? r2u2_open_under(monitor, program, size, line, count, &fault)
                              : r2u2_open(monitor, program, size, &fault);
    if (code == R2U2_REFUSED && fault.kind == R2U2_FAULT_NO_SIGNALS) code = r2u2_open(monitor, program, size, &fault);
    if (code == R2U2_DONE) return 0;
    if (code == R2U2_NO_MEMORY) return fputs("grants: out of memory\n", stderr), 8;
    if (fault.kind > R2U2_FAULT_NO_SIGNALS) return faulty(1, fault.text);
    fprintf(stderr, "grants: program: %s\n", fault.text);
    return 3;
}

int main(int words, char **names) {
    struct r2u2 monitor = {0};
    size_t count = 0;
    if (words != 3) return fputs("usage: grants PROGRAM TRACE\n", stderr), 1;
    size_t size = read_program(names[1]);
    FILE *trace = fopen(names[2], "rb");
    if (!trace) return fputs("grants: cannot open trace\n", stderr), 6;
    enum got got = read_line(trace, &count);
    int is_header = got == GOT_LINE && count && line[0] == '#';
    int status = open_monitor(&monitor, size, count, is_header);
    if (status == 0) status = watch(&monitor, trace, got, count, is_header);
    r2u2_close(&monitor);
    fclose(trace);
    return status;
}
