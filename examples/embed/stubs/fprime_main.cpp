// Runs the component over the rows of rows.h, after calls before which not every signal has a value.
#include "../fprime/Watch.hpp"
#include "grant_program.h"
#include "rows.h"

int main() {
    Mission::Watch watch("watch");
    if (!watch.configure(grant_program, sizeof grant_program)) return 1;
    watch.wake();
    watch.send(1, 1);
    watch.wake();
    for (const auto &row : rows) {
        for (int k = 0; k < COLUMNS; k++) watch.send(static_cast<FwIndexType>(k), row[k]);
        watch.wake();
    }
    return 0;
}
