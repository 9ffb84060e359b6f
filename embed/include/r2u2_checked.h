/* r2u2_checked.h: the calls of r2u2.h behind tests of their arguments.
 *
 * Each r2u2_checked_NAME returns R2U2_BAD_ARGUMENT, or 0 if it returns no code, when a pointer is null or isn't aligned, a
 * count is past what an object can have, a style isn't an r2u2_style, or arguments overlap; nothing is called or written then.
 * A null pointer with count 0 is an empty range, and a fault may be null if it isn't wanted. `fault`, `report`, `batch` and
 * `buffer` may be uninitialized, and names end with a zero byte, for which there has to be room.
 *
 * Not tested, since C can't: that a struct was all zero at first, that it isn't used as two, that a pointer leads to
 * what its count says, and that one thread uses it.
 */
#ifndef R2U2_CHECKED_H
#define R2U2_CHECKED_H

#include <stdbool.h>
#include <string.h>

#include "r2u2.h"

/* The code of a call that wasn't made. */
#define R2U2_BAD_ARGUMENT 100u

/* Returns the address of an object as a number. */
static inline uintptr_t r2u2_address(const void *at) {
#ifdef __cplusplus
    return reinterpret_cast<uintptr_t>(at);
#else
    const uint8_t *bytes = (const uint8_t *)at;
    return (uintptr_t)bytes;
#endif
}

/* A range of bytes; none at a null pointer. */
struct r2u2_span {
    const uint8_t *at;
    size_t count;
};

/* `count` elements of `size` bytes; no bytes at a null pointer. */
static inline struct r2u2_span r2u2_span_of(const void *at, size_t count, size_t size) {
    struct r2u2_span span = {R2U2_CAST(const uint8_t *, at), 0};
    if (at != NULL) {
        span.count = count * size;
    }
    return span;
}

/* Whether `count` elements of `size` bytes can be at `at`. */
static inline bool r2u2_is_there(const void *at, size_t count, size_t size) {
    const uint8_t *bytes = R2U2_CAST(const uint8_t *, at);
    return (count == 0u) ||
           ((bytes != NULL) && ((r2u2_address(bytes) % size) == 0u) && (count <= ((SIZE_MAX / 2u) / size)) &&
            (r2u2_address(bytes) <= (UINTPTR_MAX - (count * size))));
}

/* Whether an object that may be left out is null or aligned. */
static inline bool r2u2_may_be_there(const void *at, size_t size, size_t align) {
    const uint8_t *bytes = R2U2_CAST(const uint8_t *, at);
    return (bytes == NULL) || (((r2u2_address(bytes) % align) == 0u) && (r2u2_address(bytes) <= (UINTPTR_MAX - size)));
}

/* Whether two spans have a byte in common. */
static inline bool r2u2_overlap(struct r2u2_span left, struct r2u2_span right) {
    uintptr_t a = r2u2_address(left.at);
    uintptr_t b = r2u2_address(right.at);
    bool meets = (a < b) ? ((b - a) < left.count) : ((a - b) < right.count);
    return (left.count != 0u) && (right.count != 0u) && meets;
}

/* Whether two of three spans have a byte in common. */
static inline bool r2u2_any_overlap(struct r2u2_span a, struct r2u2_span b, struct r2u2_span c) {
    return r2u2_overlap(a, b) || r2u2_overlap(b, c) || r2u2_overlap(a, c);
}

static inline bool r2u2_is_struct(const struct r2u2 *it) {
    return (it != NULL) && r2u2_may_be_there(it, sizeof *it, sizeof(void *));
}

/* Copies a fault out, if it is wanted and came with the code. */
static inline void r2u2_put_fault(struct r2u2_fault *fault, const struct r2u2_fault *found, uint32_t code) {
    if ((fault != NULL) && (code == R2U2_CAST(uint32_t, R2U2_REFUSED))) {
        (void)memcpy(fault, found, sizeof *found);
    }
}

static inline uint32_t r2u2_checked_open(struct r2u2 *it, const uint8_t *program, size_t count,
                                         struct r2u2_fault *fault) {
    static const uint8_t none[1] = {0};
    struct r2u2_fault found = {0, 0, 0, {0}};
    uint32_t code = R2U2_BAD_ARGUMENT;
    if (r2u2_is_struct(it) && r2u2_is_there(program, count, 1u) &&
        r2u2_may_be_there(fault, sizeof *fault, sizeof(uint64_t)) &&
        !r2u2_any_overlap(r2u2_span_of(it, 1u, sizeof *it), r2u2_span_of(program, count, 1u),
                          r2u2_span_of(fault, 1u, sizeof *fault))) {
        code = r2u2_open(it, (count != 0u) ? program : none, count, &found);
        r2u2_put_fault(fault, &found, code);
    }
    return code;
}

static inline uint32_t r2u2_checked_open_checked(struct r2u2 *it, const uint8_t *program, size_t count,
                                                 const uint8_t *digest, struct r2u2_fault *fault) {
    static const uint8_t none[1] = {0};
    struct r2u2_fault found = {0, 0, 0, {0}};
    uint32_t code = R2U2_BAD_ARGUMENT;
    if (r2u2_is_struct(it) && r2u2_is_there(program, count, 1u) && r2u2_is_there(digest, R2U2_DIGEST_BYTES, 1u) &&
        r2u2_may_be_there(fault, sizeof *fault, sizeof(uint64_t)) &&
        !r2u2_any_overlap(r2u2_span_of(it, 1u, sizeof *it), r2u2_span_of(program, count, 1u),
                          r2u2_span_of(fault, 1u, sizeof *fault)) &&
        !r2u2_any_overlap(r2u2_span_of(it, 1u, sizeof *it), r2u2_span_of(digest, R2U2_DIGEST_BYTES, 1u),
                          r2u2_span_of(fault, 1u, sizeof *fault))) {
        code = r2u2_open_checked(it, (count != 0u) ? program : none, count, digest, &found);
        r2u2_put_fault(fault, &found, code);
    }
    return code;
}

/* A zero byte at the end of the header doesn't count, so its length may be `sizeof` a literal. */
static inline uint32_t r2u2_checked_open_under(struct r2u2 *it, const uint8_t *program, size_t count,
                                               const char *header, size_t header_count, struct r2u2_fault *fault) {
    static const uint8_t none[1] = {0};
    static const char no_header[1] = {'\0'};
    struct r2u2_fault found = {0, 0, 0, {0}};
    uint32_t code = R2U2_BAD_ARGUMENT;
    if (r2u2_is_struct(it) && r2u2_is_there(program, count, 1u) && r2u2_is_there(header, header_count, 1u) &&
        r2u2_may_be_there(fault, sizeof *fault, sizeof(uint64_t)) &&
        !r2u2_any_overlap(r2u2_span_of(it, 1u, sizeof *it), r2u2_span_of(program, count, 1u),
                          r2u2_span_of(fault, 1u, sizeof *fault)) &&
        !r2u2_any_overlap(r2u2_span_of(it, 1u, sizeof *it), r2u2_span_of(header, header_count, 1u),
                          r2u2_span_of(fault, 1u, sizeof *fault))) {
        size_t length = header_count;
        if ((length != 0u) && (header[length - 1u] == '\0')) {
            length--;
        }
        code = r2u2_open_under(it, (count != 0u) ? program : none, count, (length != 0u) ? header : no_header, length,
                               &found);
        r2u2_put_fault(fault, &found, code);
    }
    return code;
}

static inline uint32_t r2u2_checked_bytes(const uint8_t *program, size_t count, uint64_t *bytes,
                                          struct r2u2_fault *fault) {
    static const uint8_t none[1] = {0};
    struct r2u2_fault found = {0, 0, 0, {0}};
    uint64_t number = 0;
    uint32_t code = R2U2_BAD_ARGUMENT;
    if ((bytes != NULL) && r2u2_is_there(bytes, 1u, sizeof *bytes) && r2u2_is_there(program, count, 1u) &&
        r2u2_may_be_there(fault, sizeof *fault, sizeof(uint64_t)) &&
        !r2u2_any_overlap(r2u2_span_of(bytes, 1u, sizeof *bytes), r2u2_span_of(program, count, 1u),
                          r2u2_span_of(fault, 1u, sizeof *fault))) {
        code = r2u2_bytes((count != 0u) ? program : none, count, &number, &found);
        if (code == R2U2_CAST(uint32_t, R2U2_DONE)) {
            *bytes = number;
        }
        r2u2_put_fault(fault, &found, code);
    }
    return code;
}

static inline uint32_t r2u2_checked_width(const struct r2u2 *it) { return r2u2_is_struct(it) ? r2u2_width(it) : 0u; }

static inline uint32_t r2u2_checked_outputs(const struct r2u2 *it) {
    return r2u2_is_struct(it) ? r2u2_outputs(it) : 0u;
}

static inline uint64_t r2u2_checked_rows(const struct r2u2 *it) { return r2u2_is_struct(it) ? r2u2_rows(it) : 0u; }

static inline uint32_t r2u2_checked_signals(const struct r2u2 *it) {
    return r2u2_is_struct(it) ? r2u2_signals(it) : 0u;
}

static inline uint32_t r2u2_checked_delay(struct r2u2 *it, uint32_t k) {
    return r2u2_is_struct(it) ? r2u2_delay(it, k) : 0u;
}

static inline uint64_t r2u2_checked_steps(const struct r2u2 *it) { return r2u2_is_struct(it) ? r2u2_steps(it) : 0u; }

static inline uint64_t r2u2_checked_most_reports(const struct r2u2 *it) {
    return r2u2_is_struct(it) ? r2u2_most_reports(it) : 0u;
}

static inline uint32_t r2u2_checked_output_kind(struct r2u2 *it, uint32_t k) {
    return r2u2_is_struct(it) ? r2u2_output_kind(it, k) : 0u;
}

/* Copies a name with its zero byte out, and returns its length; 0 if it doesn't fit. */
static inline uint32_t r2u2_put_name(const char *name, uint32_t length, char *buffer, size_t count) {
    uint32_t put = 0u;
    if ((length != 0u) && (length < count)) {
        (void)memcpy(buffer, name, R2U2_CAST(size_t, length) + 1u);
        put = length;
    }
    return put;
}

/* Returns the length of the name, without the zero byte after it; 0 also if `count` leaves no room for that byte. */
static inline uint32_t r2u2_checked_name(struct r2u2 *it, uint32_t k, char *buffer, size_t count) {
    char name[R2U2_NAME_BYTES] = {0};
    uint32_t length = 0u;
    if (r2u2_is_struct(it) && (buffer != NULL) && r2u2_is_there(buffer, count, 1u) &&
        !r2u2_overlap(r2u2_span_of(it, 1u, sizeof *it), r2u2_span_of(buffer, count, 1u))) {
        length = r2u2_put_name(name, r2u2_name(it, k, name, sizeof name), buffer, count);
    }
    return length;
}

/* `column` and `kind` may be null if they aren't wanted. */
static inline uint32_t r2u2_checked_signal(struct r2u2 *it, uint32_t k, uint32_t *column, uint32_t *kind, char *buffer,
                                           size_t count) {
    char name[R2U2_NAME_BYTES] = {0};
    uint32_t found_column = 0u;
    uint32_t found_kind = 0u;
    uint32_t length = 0u;
    if (r2u2_is_struct(it) && (buffer != NULL) && r2u2_is_there(buffer, count, 1u) &&
        r2u2_may_be_there(column, sizeof *column, sizeof *column) &&
        r2u2_may_be_there(kind, sizeof *kind, sizeof *kind) &&
        !r2u2_any_overlap(r2u2_span_of(it, 1u, sizeof *it), r2u2_span_of(buffer, count, 1u),
                          r2u2_span_of(column, 1u, sizeof *column)) &&
        !r2u2_any_overlap(r2u2_span_of(it, 1u, sizeof *it), r2u2_span_of(buffer, count, 1u),
                          r2u2_span_of(kind, 1u, sizeof *kind)) &&
        !r2u2_overlap(r2u2_span_of(column, 1u, sizeof *column), r2u2_span_of(kind, 1u, sizeof *kind))) {
        length = r2u2_signal(it, k, &found_column, &found_kind, name, sizeof name);
        length = r2u2_put_name(name, length, buffer, count);
    }
    if ((length != 0u) && (column != NULL)) {
        *column = found_column;
    }
    if ((length != 0u) && (kind != NULL)) {
        *kind = found_kind;
    }
    return length;
}

/* Finds the signal with this name, which ends with a zero byte, and returns its number and one more; 0 if there is none.
 * `column` and `kind` may be null if they aren't wanted. It asks for the signals one after another. */
static inline uint32_t r2u2_checked_signal_named(struct r2u2 *it, const char *name, uint32_t *column, uint32_t *kind) {
    uint32_t found = 0u;
    uint32_t count = (name != NULL) ? r2u2_checked_signals(it) : 0u;
    for (uint32_t k = 0u; (k < count) && (found == 0u); k++) {
        char buffer[R2U2_NAME_BYTES] = {0};
        uint32_t length = r2u2_checked_signal(it, k, NULL, NULL, buffer, sizeof buffer);
        if ((length != 0u) && (strncmp(buffer, name, sizeof buffer) == 0)) {
            found = r2u2_checked_signal(it, k, column, kind, buffer, sizeof buffer) != 0u ? (k + 1u) : 0u;
        }
    }
    return found;
}

static inline uint32_t r2u2_checked_row(struct r2u2 *it, const int64_t *numbers, size_t count,
                                        struct r2u2_row_fault *fault) {
    static const int64_t none[1] = {0};
    struct r2u2_row_fault found = {0, 0};
    uint32_t code = R2U2_BAD_ARGUMENT;
    if (r2u2_is_struct(it) && r2u2_is_there(numbers, count, sizeof *numbers) &&
        r2u2_may_be_there(fault, sizeof *fault, sizeof(uint32_t))) {
        if (!r2u2_any_overlap(r2u2_span_of(it, 1u, sizeof *it), r2u2_span_of(numbers, count, sizeof *numbers),
                              r2u2_span_of(fault, 1u, sizeof *fault))) {
            code = r2u2_row(it, (count != 0u) ? numbers : none, count, &found);
        }
        if ((fault != NULL) && (code >= R2U2_CAST(uint32_t, R2U2_REPORTS_LEFT)) && (code != R2U2_BAD_ARGUMENT)) {
            (void)memcpy(fault, &found, sizeof found);
        }
    }
    return code;
}

static inline uint32_t r2u2_checked_next(struct r2u2 *it, uint32_t style, struct r2u2_report *report) {
    struct r2u2_report found = {0, 0, 0};
    uint32_t code = R2U2_BAD_ARGUMENT;
    if (r2u2_is_struct(it) && (report != NULL) && r2u2_may_be_there(report, sizeof *report, sizeof(uint64_t)) &&
        (style <= R2U2_CAST(uint32_t, R2U2_RUNS)) &&
        !r2u2_overlap(r2u2_span_of(it, 1u, sizeof *it), r2u2_span_of(report, 1u, sizeof *report))) {
        code = r2u2_next(it, style, &found);
        if (code == R2U2_CAST(uint32_t, R2U2_DONE)) {
            (void)memcpy(report, &found, sizeof found);
        }
    }
    return code;
}

/* Whether reports, at most `room` of them, can be stored, and don't overlap the struct. */
static inline bool r2u2_have_room(const struct r2u2 *it, const struct r2u2_report *reports, size_t room) {
    const size_t words = sizeof *reports / sizeof(uint64_t);
    return r2u2_is_struct(it) && (room <= (SIZE_MAX / words)) &&
           r2u2_is_there(reports, room * words, sizeof(uint64_t)) &&
           !r2u2_overlap(r2u2_span_of(it, 1u, sizeof *it), r2u2_span_of(reports, room, sizeof *reports));
}

/* Whether a count can be stored, and overlaps neither the struct nor the reports. */
static inline bool r2u2_count_apart(const size_t *count, struct r2u2_span it, struct r2u2_span reports) {
    struct r2u2_span span = r2u2_span_of(count, 1u, sizeof *count);
    return (count != NULL) && r2u2_is_there(count, 1u, sizeof *count) && !r2u2_overlap(span, it) &&
           !r2u2_overlap(span, reports);
}

/* The rest of `reports` is all zero after the call. */
static inline uint32_t r2u2_checked_next_many(struct r2u2 *it, uint32_t style, struct r2u2_report *reports, size_t room,
                                              size_t *count) {
    struct r2u2_report none[1] = {{0, 0, 0}};
    size_t found = 0u;
    uint32_t code = R2U2_BAD_ARGUMENT;
    if (r2u2_have_room(it, reports, room) &&
        r2u2_count_apart(count, r2u2_span_of(it, 1u, sizeof *it), r2u2_span_of(reports, room, sizeof *reports)) &&
        (style <= R2U2_CAST(uint32_t, R2U2_RUNS))) {
        if (room != 0u) {
            (void)memset(reports, 0, room * sizeof *reports);
        }
        code = r2u2_next_many(it, style, (room != 0u) ? reports : none, room, &found);
        if (code == R2U2_CAST(uint32_t, R2U2_DONE)) {
            *count = found;
        }
    }
    return code;
}

/* Whether rows, their reports and what one call did can be stored, and no two of them overlap. */
static inline bool r2u2_have_rows(const struct r2u2 *it, const int64_t *numbers, size_t count,
                                  const struct r2u2_report *reports, size_t room, const struct r2u2_batch *batch) {
    return r2u2_have_room(it, reports, room) && r2u2_is_there(numbers, count, sizeof *numbers) && (batch != NULL) &&
           r2u2_may_be_there(batch, sizeof *batch, sizeof(size_t)) &&
           !r2u2_any_overlap(r2u2_span_of(it, 1u, sizeof *it), r2u2_span_of(numbers, count, sizeof *numbers),
                             r2u2_span_of(reports, room, sizeof *reports)) &&
           !r2u2_any_overlap(r2u2_span_of(batch, 1u, sizeof *batch), r2u2_span_of(numbers, count, sizeof *numbers),
                             r2u2_span_of(reports, room, sizeof *reports)) &&
           !r2u2_overlap(r2u2_span_of(it, 1u, sizeof *it), r2u2_span_of(batch, 1u, sizeof *batch));
}

/* Whether a fault is null, or overlaps none of these. */
static inline bool r2u2_fault_apart(const struct r2u2_row_fault *fault, struct r2u2_span a, struct r2u2_span b,
                                    struct r2u2_span c, struct r2u2_span d) {
    struct r2u2_span span = r2u2_span_of(fault, 1u, sizeof *fault);
    return r2u2_may_be_there(fault, sizeof *fault, sizeof(uint32_t)) && !r2u2_overlap(span, a) &&
           !r2u2_overlap(span, b) && !r2u2_overlap(span, c) && !r2u2_overlap(span, d);
}

/* The rest of `reports` is all zero after the call. */
static inline uint32_t r2u2_checked_row_many(struct r2u2 *it, uint32_t style, const int64_t *numbers, size_t count,
                                             struct r2u2_report *reports, size_t room, struct r2u2_batch *batch,
                                             struct r2u2_row_fault *fault) {
    static const int64_t no_numbers[1] = {0};
    struct r2u2_report no_reports[1] = {{0, 0, 0}};
    struct r2u2_row_fault found = {0, 0};
    struct r2u2_batch done = {0u, 0u};
    uint32_t code = R2U2_BAD_ARGUMENT;
    if (r2u2_have_rows(it, numbers, count, reports, room, batch) && (style <= R2U2_CAST(uint32_t, R2U2_RUNS)) &&
        r2u2_fault_apart(fault, r2u2_span_of(it, 1u, sizeof *it), r2u2_span_of(numbers, count, sizeof *numbers),
                         r2u2_span_of(reports, room, sizeof *reports), r2u2_span_of(batch, 1u, sizeof *batch))) {
        if (room != 0u) {
            (void)memset(reports, 0, room * sizeof *reports);
        }
        code = r2u2_row_many(it, style, (count != 0u) ? numbers : no_numbers, count, (room != 0u) ? reports : no_reports,
                             room, &done, &found);
        if (code == R2U2_CAST(uint32_t, R2U2_DONE)) {
            (void)memcpy(batch, &done, sizeof done);
        }
        if ((fault != NULL) && (found.why != 0u)) {
            (void)memcpy(fault, &found, sizeof found);
        }
    }
    return code;
}

static inline uint32_t r2u2_checked_reset(struct r2u2 *it) {
    return r2u2_is_struct(it) ? r2u2_reset(it) : R2U2_BAD_ARGUMENT;
}

static inline void r2u2_checked_close(struct r2u2 *it) {
    if (r2u2_is_struct(it)) {
        r2u2_close(it);
    }
}

#endif
