/* Rows for the stubs of this folder: those of the first example, after one that doesn't fit, and with another in the place of
 * one that repeats the row before it. A listing that leaves a row out or makes one up has other verdicts. */
#ifndef ROWS_H
#define ROWS_H

#include <stdbool.h>
#include <stdint.h>
#include <string.h>

enum { ROWS = 7, COLUMNS = 2 };
static const int64_t rows[ROWS][COLUMNS] = {{2, 0}, {1, 0}, {0, 1}, {1, 0}, {0, 0}, {2, 0}, {0, 0}};

/* The row that the next call of sample_row stores. At the first call not every signal has a value. */
static int next_row = -1;

static inline bool sample_row(int64_t *row) {
    bool is_known = next_row >= 0;
    memcpy(row, rows[is_known ? next_row : 0], sizeof rows[0]);
    next_row++;
    return is_known;
}

#endif
