/* Runs the part that flies over the rows of the first example, and prints the lines of r2u2, without stdio. */
#include <string.h>
#include <unistd.h>

#include "flight.h"
#include "r2u2.h"

static const int ROWS[][2] = {{1, 0}, {0, 1}, {1, 0}, {0, 0}, {0, 0}, {0, 0}};

static int is_lost;

static void print(const char *text) {
    size_t count = strlen(text);
    if (write(1, text, count) != (ssize_t)count) is_lost = 1;
}

static void print_number(uint64_t number) {
    char digits[21] = {0};
    size_t at = 20;
    do digits[--at] = (char)('0' + number % 10);
    while (number /= 10);
    print(digits + at);
}

static void print_event(const char *name, uint64_t time, uint32_t word) {
    print(name);
    print(":");
    print_number(time);
    print(",");
    print(r2u2_word_text(word));
    print("\n");
}

int main(void) {
    uint32_t code = flight_start();
    for (size_t i = 0; code == 0 && i < sizeof ROWS / sizeof *ROWS; i++)
        code = flight_tick(ROWS[i][0], ROWS[i][1], print_event);
    flight_stop();
    return is_lost ? 7 : (int)code;
}
