/* The mission's part of freertos/watch_task.c and zephyr/watch_thread.c, over the rows of rows.h. */
#ifndef MISSION_H
#define MISSION_H

#include <stdint.h>
#include <stdio.h>
#include <stdlib.h>

#include "rows.h"

enum { MISSION_COLUMNS = COLUMNS };

static inline bool mission_sample(int64_t *row) { return sample_row(row); }

/* Ends the program after the last row. */
static inline void mission_wait(void) {
    if (next_row == ROWS) exit(0);
}

static inline void mission_no_monitor(const char *why) { printf("no monitor: %s\n", why); }

static inline void mission_no_row(uint32_t code, uint32_t column) { printf("no row: code %u, column %u\n", code, column); }

static inline void mission_false(uint32_t output, uint64_t time) {
    printf("requirement %u false up to row %llu\n", output, (unsigned long long)time);
}

#endif
