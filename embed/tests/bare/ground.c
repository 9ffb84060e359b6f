/* Runs the part that flies over the rows of the first example, without an operating system and a C library: it prints the
 * lines of r2u2 by the processor's semihosting, which qemu-system-aarch64 has. */
#include <stddef.h>
#include <stdint.h>

#include "flight.h"
#include "r2u2.h"

enum { SYS_WRITE0 = 0x04, SYS_EXIT = 0x18 };

static const int ROWS[][2] = {{1, 0}, {0, 1}, {1, 0}, {0, 0}, {0, 0}, {0, 0}};

void leave(uint32_t code);

static void host(uint64_t call, const void *argument) {
    register uint64_t number __asm__("x0") = call;
    register const void *block __asm__("x1") = argument;
    __asm__ volatile("hlt #0xf000" : "+r"(number) : "r"(block) : "memory");
}

static void print(const char *text) { host(SYS_WRITE0, text); }

static void print_number(uint64_t number) {
    char digits[21] = {0};
    size_t at = 20;
    do {
        digits[--at] = (char)('0' + number % 10);
        number /= 10;
    } while (number > 0);
    print(digits + at);
}

static void print_event(const char *name, uint64_t time, uint32_t word) {
    print(name);
    print(":");
    print_number(time);
    print(",");
    print(r2u2_word_text(word));
    print("\n");
}

/* Ends the run; 0x20026 says that the program ended by itself. */
void leave(uint32_t code) {
    const uint64_t block[2] = {0x20026, code};
    host(SYS_EXIT, block);
}

int main(void) {
    uint32_t code = flight_start();
    for (size_t i = 0; code == 0 && i < sizeof ROWS / sizeof *ROWS; i++)
        code = flight_tick(ROWS[i][0], ROWS[i][1], print_event);
    flight_stop();
    return (int)code;
}
