#include "Watch.hpp"

#include <algorithm>

namespace Mission {

bool Watch::configure(const U8 *program, FwSizeType size) {
    r2u2_fault fault{};
    if (r2u2_open(&monitor, program, size, &fault) == R2U2_DONE) return true;
    log_FATAL_NoMonitor(Fw::LogStringArg(fault.text));
    return false;
}

void Watch::sampleIn_handler(FwIndexType port, I64 value) {
    row[static_cast<std::size_t>(port)] = value;
    known[static_cast<std::size_t>(port)] = true;
}

// Passes a row once each signal has a value. If it doesn't fit, passes the last row that did, so that rows stay in step with
// calls; none before the first. A column `stale` of the specification would be set to 1 in `good`.
void Watch::schedIn_handler(FwIndexType, U32) {
    if (!std::all_of(known.begin(), known.end(), [](bool is) { return is; })) return;
    r2u2_row_fault why{};
    const uint32_t code = r2u2_row(&monitor, row.data(), COLUMNS, &why);
    if (code == R2U2_DONE) {
        good = row;
        hasGood = true;
    } else {
        log_WARNING_HI_NoRow(code, why.column);
        if (code == R2U2_NOT_A_ROW && hasGood) r2u2_row(&monitor, good.data(), COLUMNS, &why);
    }
    report();
}

void Watch::report() {
    r2u2_report next{};
    while (r2u2_next(&monitor, R2U2_RUNS, &next) == R2U2_DONE)
        if (next.word == R2U2_FALSE || next.word == R2U2_INVALID) log_WARNING_HI_RequirementFalse(next.output, next.time);
}

}  // namespace Mission
