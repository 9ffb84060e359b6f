/* A thread of Zephyr that passes the monitor a row every 100 ms. Build with CONFIG_FPU_SHARING=y: the calls of the library use
 * SSE or NEON. You define the names that begin with mission_. */
#include <string.h>
#include <zephyr/kernel.h>

#include "grant_program.h" /* by embed/constant grant_program grant.bin */
#include "mission.h"
#include "r2u2.h"
#include "r2u2_port.h"

#define WATCH_STACK 8192
#define WATCH_PRIORITY 7

enum { MEMORY = 4096 };

static uint8_t memory[MEMORY] __aligned(16);
static struct r2u2 monitor;

/* Passes a row. If it doesn't fit, passes the last row that did, so that rows stay in step with time; none before the first. A
 * column `stale` of the specification would be set to 1 in `good`. */
static void take(const int64_t *row) {
    static int64_t good[MISSION_COLUMNS];
    static bool has_good;
    struct r2u2_row_fault why = {0};
    struct r2u2_report report = {0};
    uint32_t code = r2u2_row(&monitor, row, MISSION_COLUMNS, &why);
    if (code == R2U2_DONE) {
        memcpy(good, row, sizeof good);
        has_good = true;
    } else {
        mission_no_row(code, why.column);
        if (code == R2U2_NOT_A_ROW && has_good) r2u2_row(&monitor, good, MISSION_COLUMNS, &why);
    }
    while (r2u2_next(&monitor, R2U2_RUNS, &report) == R2U2_DONE)
        if (report.word == R2U2_FALSE || report.word == R2U2_INVALID) mission_false(report.output, report.time);
}

static void watch(void *a, void *b, void *c) {
    struct r2u2_fault fault = {0};
    struct k_timer timer;
    ARG_UNUSED(a), ARG_UNUSED(b), ARG_UNUSED(c);
    r2u2_arena(memory, sizeof memory);
    if (r2u2_open(&monitor, grant_program, sizeof grant_program, &fault) != R2U2_DONE) {
        mission_no_monitor(fault.text);
        return;
    }
    k_timer_init(&timer, NULL, NULL);
    k_timer_start(&timer, K_MSEC(100), K_MSEC(100));
    for (;;) {
        int64_t row[MISSION_COLUMNS];
        /* The last value of each signal, taken together; false before each signal has one. */
        if (mission_sample(row)) take(row);
        k_timer_status_sync(&timer);
    }
}

K_THREAD_DEFINE(watch_thread, WATCH_STACK, watch, NULL, NULL, NULL, WATCH_PRIORITY, K_FP_REGS, 0);
