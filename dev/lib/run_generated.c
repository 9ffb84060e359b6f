/* Runs monitors that r2u2-generate wrote over rows of 32-bit integers in files, and prints the lines of r2u2: once with
 * each time, once by runs, once by handlers, the latter two after some rows and a reset. MONITORS is a list of
 * MONITOR(name, width, has_step), and `out` the file that handlers print into. */
#include <stdio.h>
#include <stdlib.h>
#include <string.h>

static const char *const words[] = {"F", "T", "inactive", "invalid", "verified"};

static int32_t *rows_of(const char *name, size_t *count) {
    FILE *file = fopen(name, "rb");
    int32_t *rows = malloc(1 << 26);
    if (file == NULL || rows == NULL) exit(2);
    *count = fread(rows, sizeof *rows, (1 << 26) / sizeof *rows, file);
    fclose(file);
    return rows;
}

#define MONITOR(name, width, has_step)                                                                                      \
    static void print_##name(const struct name##_report *report) {                                                        \
        fprintf(out, "%s:%llu,%s\n", name##_names[report->output], (unsigned long long)report->time, words[report->word]); \
    }                                                                                                                      \
    static void run_##name(int runs) {                                                                                     \
        static struct name it;                                                                                             \
        struct name##_report report;                                                                                       \
        size_t count;                                                                                                      \
        int32_t *rows = rows_of(#name ".rows", &count);                                                                    \
        out = fopen(runs ? #name ".runs" : #name ".each", "w");                                                      \
        if (out == NULL) exit(2);                                                                                          \
        if (runs) {                                                                                                        \
            for (size_t k = 0; k + width <= count / 3; k += width) {                                                       \
                if (!name##_row(&it, rows + k)) exit(3);                                                                   \
                while (name##_next_run(&it, &report)) {}                                                                   \
            }                                                                                                              \
            name##_init(&it);                                                                                              \
        }                                                                                                                  \
        for (size_t k = 0; k + width <= count; k += width) {                                                               \
            if (!name##_row(&it, rows + k)) exit(3);                                                                       \
            while (runs ? name##_next_run(&it, &report) : name##_next(&it, &report)) print_##name(&report);                \
        }                                                                                                                  \
        fclose(out);                                                                                                       \
        out = has_step && runs ? fopen(#name ".step", "w") : NULL;                                                          \
        name##_init(&it);                                                                                                  \
        for (size_t k = 0; out != NULL && k + width <= count; k += width) {                                                \
            if (!name##_step(&it, rows + k)) exit(3);                                                                      \
        }                                                                                                                  \
        if (out != NULL) fclose(out);                                                                                      \
        free(rows);                                                                                                        \
    }
MONITORS
#undef MONITOR

int main(void) {
#define MONITOR(name, width, has_step) run_##name(0), run_##name(1);
    MONITORS
    return 0;
}
