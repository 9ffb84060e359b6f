/* Stand-ins for the calls of Zephyr that zephyr/watch_thread.c makes: the thread is the program, and ends with the rows. */
#ifndef KERNEL_H
#define KERNEL_H

#include <stddef.h>
#include <stdint.h>

#include "mission.h"

#define __aligned(bytes) __attribute__((aligned(bytes)))
#define ARG_UNUSED(argument) (void)(argument)
#define K_MSEC(ms) (ms)
#define K_FP_REGS 2
#define K_THREAD_DEFINE(name, stack, entry, a, b, c, priority, options, delay) \
    int main(void) {                                                           \
        entry(a, b, c);                                                        \
        return 1;                                                              \
    }                                                                          \
    typedef int name##_options[(stack) + (priority) + (options) + (delay)]

struct k_timer {
    int period;
};

static inline void k_timer_init(struct k_timer *timer, void (*expired)(struct k_timer *), void (*stopped)(struct k_timer *)) {
    (void)expired, (void)stopped;
    timer->period = 0;
}

static inline void k_timer_start(struct k_timer *timer, int first, int period) {
    (void)first;
    timer->period = period;
}

static inline uint32_t k_timer_status_sync(struct k_timer *timer) {
    mission_wait();
    return (uint32_t)timer->period;
}

#endif
