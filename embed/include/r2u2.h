/* r2u2.h: the proved monitor of Mission-time LTL, for programs in C and C++.
 *
 * `make embed` leaves the library with this header in build/x86_64/: link libr2u2.a, and with it libr2u2_heap.a, by which
 * it calls malloc, realloc and free, or arena.c in the place of these (r2u2_port.h). r2u2_checked.h has the same calls
 * behind tests of their arguments. docs/assurance/promises.md says what is proved of each call.
 *
 * WHAT A CALLER OWES. The calls are proved for callers that keep to this. Nothing checks that they do.
 *
 *  - A struct r2u2 is all zero before its first call (`struct r2u2 m = {0};`). Only these calls write it. It may be
 *    moved to another address between two calls, but is never copied and then used as two.
 *  - Each pointer is aligned, isn't null, even if its count is 0, and leads to as many elements as its count says, in
 *    one object. Every byte of `fault`, `report`, `reports`, `batch` and `buffer` was written before the call (`= {0}` serves).
 *  - The arguments of one call don't overlap, except that two pointers that are only read may be equal.
 *  - One struct is used by one thread at a time. It may pass to another thread between two calls, so that one opens it and
 *    another takes rows: a lock, the start or the join of a thread, or a sequentially consistent atomic orders the two.
 *    Different structs don't share anything but the heap, and may be used by different threads at once.
 *  - No call is made from a signal handler, nor in the forked child of a process with threads.
 *  - malloc, realloc and free are those of one allocator, and align a block to each power of two up to 16 that divides
 *    its size.
 *
 * WHO OWNS WHAT. From a successful open on the struct owns one monitor, on the heap, until r2u2_close frees it. A struct
 * that goes away while it is open leaks its monitor. The calls keep no pointer of the caller: program, header, rows
 * and buffers stay the caller's.
 *
 * MEMORY. r2u2_open, r2u2_open_under and r2u2_open_checked allocate all of it, and r2u2_bytes allocates and frees again. No
 * other call allocates, and so none can run out of memory.
 *
 * RESULTS. A call that returns a code has succeeded if it returns R2U2_DONE, 0. At every other code the monitor is as it
 * was before the call, and nothing was written but the fault that says why.
 */
#ifndef R2U2_H
#define R2U2_H

#include <stddef.h>
#include <stdint.h>

#ifdef __cplusplus
extern "C" {
#endif

/* The version of this header: 10,000, 100 and 1 times its three numbers. r2u2_version returns that of the library. */
#define R2U2_VERSION 900u
#define R2U2_VERSION_TEXT "0.9.0"

/* A monitor, or none if all is zero. The members belong to the library: only its calls read and write them. */
struct r2u2 {
    void *at;
    uint64_t rows;
    uint32_t width, outputs, signals;
    uint64_t steps, most_reports;
};

/* The codes that calls return. */
enum r2u2_code {
    R2U2_DONE = 0,
    R2U2_NOT_OPEN = 1,      /* the struct has no monitor */
    R2U2_ALREADY_OPEN = 2,  /* the struct has a monitor: close it first */
    R2U2_REFUSED = 3,       /* the program or the header has a fault, which is in `fault` */
    R2U2_NO_MEMORY = 4,     /* out of memory */
    R2U2_REPORTS_LEFT = 5,  /* ask for the reports of the last row first */
    R2U2_NOT_A_ROW = 6,     /* the numbers aren't a row of the program */
    R2U2_TOO_MANY_ROWS = 7, /* 1,099,511,627,776 rows were taken */
    R2U2_NO_REPORT = 8,     /* all reports were returned: take the next row */
    R2U2_DAMAGED = 9,       /* the program has another digest: its bytes were changed */
    R2U2_NO_ROOM = 10       /* less room than the reports of one row may need */
};

/* The kinds of faults: of the bytes, then of the program that they spell, then of a header. docs/reference/formats.md has the
 * order in which faults are looked for. */
enum r2u2_fault_kind {
    R2U2_FAULT_SHORT = 1,           /* fewer bytes than the header of the file says */
    R2U2_FAULT_MAGIC = 2,           /* the first four bytes aren't MLTL */
    R2U2_FAULT_VERSION = 3,         /* neither 1 nor 2 */
    R2U2_FAULT_RESERVED = 4,        /* a byte that must be 0 isn't, or names no engine or no kind; place: the byte */
    R2U2_FAULT_OPCODE = 5,          /* no opcode of its part; place: the byte */
    R2U2_FAULT_TRAILING = 6,        /* more bytes than the header of the file says */
    R2U2_FAULT_NAME_BYTES = 7,      /* no name; place: the output, or their number if bytes are left over */
    R2U2_FAULT_SIGNAL_BYTES = 8,    /* no name; place: the signal, or their number if bytes are left over */
    R2U2_FAULT_WIDTH = 9,           /* more than 65,536 columns */
    R2U2_FAULT_SIGNAL = 10,         /* no column of its own, or the name of one before; place: the signal */
    R2U2_FAULT_OPERAND = 11,        /* reads what it can't read; part and place: the instruction */
    R2U2_FAULT_INTERVAL = 12,       /* runs downward or past its limit; part and place: the instruction */
    R2U2_FAULT_DIVISOR = 13,        /* divides by what isn't a number other than 0; place: the instruction */
    R2U2_FAULT_RANGE = 14,          /* may need more than 64 bits; place: the instruction */
    R2U2_FAULT_TOO_LATE = 15,       /* a worst-case delay above 16,777,216 rows; place: the instruction */
    R2U2_FAULT_OUTPUT = 16,         /* reports an instruction that doesn't exist; place: the output */
    R2U2_FAULT_SIZE = 17,           /* a stored size isn't the one that is needed; part and place: the instruction */
    R2U2_FAULT_TOO_MANY_SLOTS = 18, /* more than 16,777,216 slots and boxes */
    R2U2_FAULT_NO_SIGNALS = 19,     /* a header for a program of version 1, which stores no names */
    R2U2_FAULT_LONG_HEADER = 20,    /* the header has more than 65,535 bytes */
    R2U2_FAULT_NO_HEADER = 21,      /* the header doesn't begin with '#' */
    R2U2_FAULT_MISSING = 22,        /* the header doesn't have a signal's name; the text has it */
    R2U2_FAULT_TWICE = 23           /* the header has a signal's name more than once; the text has it */
};

/* Why a program or a header was refused. */
struct r2u2_fault {
    uint32_t kind;  /* an r2u2_fault_kind */
    uint32_t part;  /* the part of the instruction: 1 bz, 2 ft, 3 pt; 0 if the fault has none */
    uint64_t place; /* the byte, instruction, output or signal, counted from 0; 0 if the fault has none */
    char text[96];  /* the message, ended by a zero byte, as "operand ft 3" or "name grant missing" */
};

/* Why a row wasn't taken. */
struct r2u2_row_fault {
    uint32_t why;    /* R2U2_REPORTS_LEFT, R2U2_NOT_A_ROW or R2U2_TOO_MANY_ROWS */
    uint32_t column; /* at R2U2_NOT_A_ROW the first column that can't hold its number, counted from 0; if there are too few
                      * numbers the first without one, and if there are too many the first past the width. Else 0 */
};

/* The word of an output at a time: the verdict of a formula, or the status of an assume-guarantee contract. */
enum r2u2_word {
    R2U2_FALSE = 0,
    R2U2_TRUE = 1,
    R2U2_INACTIVE = 2, /* the assumption is false */
    R2U2_INVALID = 3,  /* the assumption is true, and the guarantee is false */
    R2U2_VERIFIED = 4  /* both are true */
};

struct r2u2_report {
    uint64_t time;   /* in rows, the first of which has time 0 */
    uint32_t output; /* counted from 0 */
    uint32_t word;   /* an r2u2_word */
};

/* How r2u2_next reports times: one by one, or one report for each longest run of newly known times with one word, with its
 * last time. */
enum r2u2_style { R2U2_EACH = 0, R2U2_RUNS = 1 };

/* Opens the observer program of `count` bytes at `program`. Rows have the columns that it was compiled for.
 *
 * R2U2_DONE: the monitor has taken no rows, and has no report. R2U2_ALREADY_OPEN. R2U2_REFUSED: `fault` has the first fault
 * of the program. R2U2_NO_MEMORY: everything that was allocated is free again. */
uint32_t r2u2_open(struct r2u2 *it, const uint8_t *program, size_t count, struct r2u2_fault *fault);

/* Opens a program under a header: the signals that it stores, in version 2, are in the columns that have their names.
 * The header is one record of CSV after '#', as "#request,grant", without the end of its line. Rows are as wide as the
 * header. R2U2_REFUSED also if the header doesn't name each signal exactly once. */
uint32_t r2u2_open_under(struct r2u2 *it, const uint8_t *program, size_t count, const char *header, size_t header_count,
                         struct r2u2_fault *fault);

/* The bytes of a digest. */
#define R2U2_DIGEST_BYTES 32u

/* Opens a program as r2u2_open does if its SHA-256 is `digest`, the 32 bytes that `sha256sum` prints for its file. So no
 * program is opened whose bytes were changed, not even if they still spell one.
 *
 * Codes as of r2u2_open, and before R2U2_REFUSED and R2U2_NO_MEMORY R2U2_DAMAGED: the program has another digest. */
uint32_t r2u2_open_checked(struct r2u2 *it, const uint8_t *program, size_t count, const uint8_t digest[R2U2_DIGEST_BYTES],
                           struct r2u2_fault *fault);

/* The most blocks that an open monitor holds. */
#define R2U2_BLOCKS 19u

/* Stores in `bytes` how many bytes a monitor of this program holds from its opening on, in all its blocks together: the sum
 * of the sizes that it allocated. An allocator adds bytes to each of at most R2U2_BLOCKS blocks; arena.c adds 16 to a block
 * and rounds its size up to a multiple of 8. Under a header the monitor holds 9 bytes more for each column beyond those of
 * the program. Opening holds other blocks for a while, and so does this call: r2u2_open_bytes and r2u2_open_under_bytes of
 * r2u2_port.h return how many bytes suffice.
 *
 * R2U2_DONE: `bytes` has it. R2U2_REFUSED: `fault` has the first fault of the program. R2U2_NO_MEMORY. */
uint32_t r2u2_bytes(const uint8_t *program, size_t count, uint64_t *bytes, struct r2u2_fault *fault);

/* Queries of an open monitor. Each returns 0 if none is open. */

/* The next six only read: several threads may make them at once, while no other call uses the struct.
 *
 * How many numbers a row has, how many outputs there are, how many signals the program stores (one of version 1 stores none),
 * and how many rows were taken. */
uint32_t r2u2_width(const struct r2u2 *it);
uint32_t r2u2_outputs(const struct r2u2 *it);
uint32_t r2u2_signals(const struct r2u2 *it);
uint64_t r2u2_rows(const struct r2u2 *it);

/* Returns the most steps of one row, from r2u2_row to the call that returns its last report: for each instruction of the three
 * parts, with the reads and writes of queues and boxes, each column, each output and each report. The program determines it. */
uint64_t r2u2_steps(const struct r2u2 *it);

/* Returns the most reports that one row brings, of all outputs together: between two rows r2u2_next returns no more, in either
 * style. Size the telemetry of a row by it. */
uint64_t r2u2_most_reports(const struct r2u2 *it);

/* The calls from here to r2u2_signal change nothing, but they write to the struct while they run: it isn't const, and no
 * other call uses it meanwhile. Make them once, after opening, and keep their results, as r2u2_keep_outputs and
 * r2u2_keep_signals below do. */

/* Bytes that hold each name with its zero byte. */
#define R2U2_NAME_BYTES 65u

/* Writes the name of output `k`, counted from 0, to the start of `buffer`, and a zero byte after it if it fits, and
 * returns the name's length, 1 to 64; the rest of the buffer stays. Returns 0, and writes nothing, if none is open, there is
 * no such output, or `count` is less than the name's length. 65 bytes hold each name with its zero byte. */
uint32_t r2u2_name(struct r2u2 *it, uint32_t k, char *buffer, size_t count);

/* Returns the worst-case delay of output `k` in rows: the row at time t + delay reports its time t at the latest. 0 also
 * if there is no such output. */
uint32_t r2u2_delay(struct r2u2 *it, uint32_t k);

/* The kinds of outputs; 0 is neither. */
enum r2u2_output_kind { R2U2_FORMULA = 1, R2U2_CONTRACT = 2 };

/* Returns the kind of output `k`, an r2u2_output_kind; 0 also if there is no such output. A formula is reported as
 * false or true, a contract as inactive, invalid or verified. */
uint32_t r2u2_output_kind(struct r2u2 *it, uint32_t k);

/* The kinds of signals: integers and Booleans. */
enum r2u2_signal_kind { R2U2_WHOLE = 0, R2U2_TRUTH = 1 };

/* Returns the column and the kind, an r2u2_signal_kind, of signal `k`, counted from 0 in order of declaration, and writes
 * its name as r2u2_name does. Returns 0, and writes nothing, if none is open, there is no such signal, or `count` is
 * less than the name's length. */
uint32_t r2u2_signal(struct r2u2 *it, uint32_t k, uint32_t *column, uint32_t *kind, char *name, size_t count);

/* Returns the version of the library, as R2U2_VERSION. */
uint32_t r2u2_version(void);

/* Takes the next row: one number for each column. A Boolean is 0 or 1, an integer has 32 bits with its sign; columns that
 * the program doesn't read may hold anything. Ask for all its reports before the next row.
 *
 * R2U2_DONE, R2U2_NOT_OPEN, R2U2_REPORTS_LEFT, R2U2_NOT_A_ROW, R2U2_TOO_MANY_ROWS: the first of these that holds. At the
 * last three `fault` says why. */
uint32_t r2u2_row(struct r2u2 *it, const int64_t *numbers, size_t count, struct r2u2_row_fault *fault);

/* Returns the next report of the rows so far: outputs in order, and the times of each in order. Each time of an output is
 * reported once, after all earlier ones and no later than its worst-case delay. If `style` is R2U2_EACH there is a report
 * for each time, and at any other number one for each run.
 *
 * R2U2_DONE: `report` has it. R2U2_NOT_OPEN. R2U2_NO_REPORT: none is left. */
uint32_t r2u2_next(struct r2u2 *it, uint32_t style, struct r2u2_report *report);

/* Stores the next reports of the rows so far, as many as there is room for: in `reports` the reports that r2u2_next returns
 * one after another, and in `count` how many. If they are fewer than `room`, none is left.
 *
 * R2U2_DONE, also if there was none. R2U2_NOT_OPEN. */
uint32_t r2u2_next_many(struct r2u2 *it, uint32_t style, struct r2u2_report *reports, size_t room, size_t *count);

/* The numbers of rows and reports of one call. */
struct r2u2_batch {
    size_t rows;    /* the rows that were taken */
    size_t reports; /* the reports that were written */
};

/* Takes rows one after another, which `numbers` has without gaps, of r2u2_width numbers each, and returns the reports of each
 * before it takes the next: what r2u2_row and r2u2_next do, called for each row and for each report. `batch` says how many
 * rows and reports there were. It stops before a row whose reports might not fit into the room that is left, which is less than
 * r2u2_most_reports, and before a row that can't be taken. Call it again with the rest of the numbers: if its first row can't
 * be taken the code says why, as r2u2_row does. For a program without columns each row needs a call of r2u2_row.
 *
 * R2U2_DONE: at least one row was taken, or there was none. R2U2_NOT_OPEN. R2U2_NO_ROOM: `room` is less than r2u2_most_reports.
 * R2U2_REPORTS_LEFT, R2U2_NOT_A_ROW, R2U2_TOO_MANY_ROWS: `fault` says why the first row isn't taken. */
uint32_t r2u2_row_many(struct r2u2 *it, uint32_t style, const int64_t *numbers, size_t count, struct r2u2_report *reports,
                       size_t room, struct r2u2_batch *batch, struct r2u2_row_fault *fault);

/* Resets the monitor to its state before the first row, as after it was opened. It keeps its program and its memory;
 * reports that are left are dropped.
 *
 * R2U2_DONE. R2U2_NOT_OPEN. */
uint32_t r2u2_reset(struct r2u2 *it);

/* Frees the monitor, if one is open. The struct is all zero again. `it` isn't null. */
void r2u2_close_struct(struct r2u2 *it);

/* Frees the monitor, if one is open; does nothing at a null pointer. */
static inline void r2u2_close(struct r2u2 *it) {
    if (it != NULL) {
        r2u2_close_struct(it);
    }
}

/* A conversion, in C and in C++. */
#ifdef __cplusplus
#define R2U2_CAST(type, value) static_cast<type>(value)
#else
#define R2U2_CAST(type, value) ((type)(value))
#endif

/* Returns text `k` of a list, or "unknown". */
static inline const char *r2u2_text_of(const char *const *texts, size_t count, uint32_t k) {
    return (k < count) ? texts[k] : "unknown";
}

/* Returns the text of an r2u2_code. */
static inline const char *r2u2_code_text(uint32_t code) {
    static const char *const texts[11] = {"done",         "not open",  "already open",  "refused",   "out of memory", "reports left",
                                          "not a row",    "too many rows", "no report", "damaged",   "no room"};
    return r2u2_text_of(texts, sizeof texts / sizeof texts[0], code);
}

/* Returns the text of an r2u2_word, as r2u2 prints it. */
static inline const char *r2u2_word_text(uint32_t word) {
    static const char *const texts[5] = {"F", "T", "inactive", "invalid", "verified"};
    return r2u2_text_of(texts, sizeof texts / sizeof texts[0], word);
}

/* Returns the text of an r2u2_fault_kind; the text of the fault itself says more. */
static inline const char *r2u2_fault_kind_text(uint32_t kind) {
    static const char *const texts[24] = {"no fault",        "short",          "magic",      "version",
                                          "reserved byte",   "opcode",         "trailing",   "bytes of a name",
                                          "bytes of a signal's name", "width", "signal",     "operand",
                                          "interval",        "divisor",        "range",      "delay too large",
                                          "output",          "size",           "too many slots", "no signals stored",
                                          "header too long", "no header",      "name missing", "name twice"};
    return r2u2_text_of(texts, sizeof texts / sizeof texts[0], kind);
}

/* COPIES OF QUERIES. What the queries by number return, in arrays of yours. They write to the struct while they run, so make the
 * copies right after opening: any number of tasks may read them from then on, while one takes rows. They hold until the monitor
 * is closed. */

/* An output: its name, ended by a zero byte, its worst-case delay in rows, and its r2u2_output_kind. */
struct r2u2_kept_output {
    char name[R2U2_NAME_BYTES];
    uint32_t delay;
    uint32_t kind;
};

/* A signal: its name, ended by a zero byte, its column, and its r2u2_signal_kind. */
struct r2u2_kept_signal {
    char name[R2U2_NAME_BYTES];
    uint32_t column;
    uint32_t kind;
};

/* Writes the first `room` outputs of an open monitor, and returns how many there are, also if they are more. */
static inline size_t r2u2_keep_outputs(struct r2u2 *it, struct r2u2_kept_output *kept, size_t room) {
    size_t count = r2u2_outputs(it);
    for (size_t k = 0; (k < count) && (k < room); k++) {
        const struct r2u2_kept_output none = {{0}, 0u, 0u};
        kept[k] = none;
        kept[k].delay = r2u2_delay(it, R2U2_CAST(uint32_t, k));
        kept[k].kind = r2u2_output_kind(it, R2U2_CAST(uint32_t, k));
        (void)r2u2_name(it, R2U2_CAST(uint32_t, k), kept[k].name, sizeof kept[k].name);
    }
    return count;
}

/* Writes the first `room` signals that its program stores, and returns how many there are. */
static inline size_t r2u2_keep_signals(struct r2u2 *it, struct r2u2_kept_signal *kept, size_t room) {
    size_t count = r2u2_signals(it);
    for (size_t k = 0; (k < count) && (k < room); k++) {
        const struct r2u2_kept_signal none = {{0}, 0u, 0u};
        kept[k] = none;
        (void)r2u2_signal(it, R2U2_CAST(uint32_t, k), &kept[k].column, &kept[k].kind, kept[k].name, sizeof kept[k].name);
    }
    return count;
}

/* The sizes that the library was compiled for. */
#if defined(__STDC_VERSION__) && (__STDC_VERSION__ >= 201112L)
#define R2U2_SIZE_IS(type, bytes) _Static_assert(sizeof(type) == (bytes), "a size that the library doesn't have")
#elif defined(__cplusplus) && (__cplusplus >= 201103L)
#define R2U2_SIZE_IS(type, bytes) static_assert(sizeof(type) == (bytes), "a size that the library doesn't have")
#endif
#ifdef R2U2_SIZE_IS
R2U2_SIZE_IS(void *, 8u);
R2U2_SIZE_IS(size_t, 8u);
R2U2_SIZE_IS(struct r2u2, 48u);
R2U2_SIZE_IS(struct r2u2_fault, 112u);
R2U2_SIZE_IS(struct r2u2_row_fault, 8u);
R2U2_SIZE_IS(struct r2u2_report, 16u);
R2U2_SIZE_IS(struct r2u2_batch, 16u);
#undef R2U2_SIZE_IS
#endif

#ifdef __cplusplus
}
#endif

#endif
