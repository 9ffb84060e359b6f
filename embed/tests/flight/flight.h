/* The part that flies: the monitor of the first example in static memory. */
#ifndef FLIGHT_H
#define FLIGHT_H

#include <stddef.h>
#include <stdint.h>

/* Who hears of each report: the output's name, the time in rows, and an r2u2_word. */
typedef void flight_event(const char *name, uint64_t time, uint32_t word);

/* Opens the monitor, once, at start. Returns an r2u2_code. */
uint32_t flight_start(void);

/* Feeds the row of this tick, and passes its reports on. Returns an r2u2_code; above 0 the row wasn't taken. */
uint32_t flight_tick(int request, int grant, flight_event *event);

/* The bytes of memory that were used at most. */
size_t flight_bytes(void);

void flight_stop(void);

#endif
