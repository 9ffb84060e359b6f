/* More of them: a task waits until its program ends, after the last row. */
#ifndef TASK_H
#define TASK_H

#include "FreeRTOS.h"
#include "mission.h"

void watch_task(void *unused);

static inline TickType_t xTaskGetTickCount(void) { return 0; }
static inline void vTaskDelete(void *task) { (void)task; }

static inline void vTaskDelayUntil(TickType_t *woken, TickType_t ticks) {
    *woken += ticks;
    mission_wait();
}

int main(void) {
    watch_task(0);
    return 1;
}

#endif
