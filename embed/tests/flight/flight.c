/* A monitor for flight: its program is a constant, its memory an array. No heap, no file, no print. */
#include "flight.h"

#include "grant_program.h" /* by embed/constant grant_program grant.bin */
#include "r2u2.h"
#include "r2u2_port.h"

enum { BYTES = 4096, COLUMNS = 2 };

static _Alignas(16) uint8_t memory[BYTES];
static struct r2u2 monitor;

uint32_t flight_start(void) {
    struct r2u2_fault fault = {0};
    r2u2_arena(memory, sizeof memory);
    return r2u2_open_checked(&monitor, grant_program, sizeof grant_program, grant_program_digest, &fault);
}

uint32_t flight_tick(int request, int grant, flight_event *event) {
    const int64_t row[COLUMNS] = {request, grant};
    struct r2u2_row_fault fault = {0};
    struct r2u2_report report = {0};
    uint32_t code = r2u2_row(&monitor, row, COLUMNS, &fault);
    while (r2u2_next(&monitor, R2U2_EACH, &report) == R2U2_DONE) {
        char name[65] = {0};
        r2u2_name(&monitor, report.output, name, 64);
        event(name, report.time, report.word);
    }
    return code;
}

size_t flight_bytes(void) { return r2u2_arena_most(); }

void flight_stop(void) { r2u2_close(&monitor); }
