// Watches the rows of the first example: grants PROGRAM prints the lines of r2u2.
#include <array>
#include <fstream>
#include <iostream>
#include <iterator>
#include <utility>

#include "r2u2.hpp"

using Row = std::array<std::int64_t, 2>;

// What the queries of a fresh monitor say.
static bool is_described(mltl::Monitor &monitor, const std::vector<char> &program) {
    const std::vector<mltl::Signal> signals = monitor.signals();
    return r2u2_version() == R2U2_VERSION && signals.size() == 2 && signals[1].name == "grant" && signals[1].column == 1 &&
           signals[1].kind == R2U2_TRUTH && monitor.rows() == 0 && monitor.delay(0) != 0 && monitor.steps() != 0 &&
           mltl::Monitor::bytes(program) != 0;
}

// Whether a row that doesn't fit is refused, with its column.
static bool is_refused(mltl::Monitor &monitor) {
    try {
        monitor.row(Row{{0, 2}});
        return false;
    } catch (const mltl::Error &error) {
        return error.code == R2U2_NOT_A_ROW && error.row.column == 1;
    }
}

// Whether a monitor that isn't open says so.
static bool is_closed(mltl::Handle &handle) {
    mltl::Report report;
    return !handle.is_open() && handle.next(report) == R2U2_NOT_OPEN && handle.reset() == R2U2_NOT_OPEN;
}

// Whether a program with another digest isn't opened, and many reports come at once.
static bool is_checked(const std::vector<char> &program, const Row &row) {
    const std::uint8_t other[R2U2_DIGEST_BYTES] = {};
    mltl::Handle handle;
    r2u2_report reports[2];
    std::size_t count = 0;
    return handle.open_checked(program, other) == R2U2_DAMAGED && handle.open(program) == R2U2_DONE &&
           handle.row(row) == R2U2_DONE && handle.next_many(reports, 2, count) == R2U2_DONE && count == 1;
}

// Whether pointers with counts serve as ranges do.
static bool takes_pointers(const std::vector<char> &program) {
    const std::uint8_t *bytes = reinterpret_cast<const std::uint8_t *>(program.data());
    const std::uint8_t other[R2U2_DIGEST_BYTES] = {};
    const std::int64_t numbers[] = {1, 0, 0, 1};
    mltl::Handle handle;
    r2u2_report reports[8];
    r2u2_batch batch{};
    return handle.open_checked(bytes, program.size(), other) == R2U2_DAMAGED &&
           handle.open_under(bytes, program.size(), "#grant,request", 14) == R2U2_DONE && handle.row(numbers, 2) == R2U2_DONE &&
           handle.row_many(numbers + 2, 2, reports, 8, batch) == R2U2_REPORTS_LEFT && handle.reset() == R2U2_DONE &&
           handle.row_many(numbers, 4, reports, 8, batch) == R2U2_DONE && batch.rows == 2 && batch.reports == 1;
}

// Whether a handle that another was moved from has no monitor, by both ways to move, and the other's own was closed.
static bool is_moved(const std::vector<char> &program, const Row &row) {
    mltl::Handle first, second;
    mltl::Report report;
    if (first.open(program) != R2U2_DONE || second.open(program) != R2U2_DONE || second.row(row) != R2U2_DONE) return false;
    first = std::move(second);
    if (second.is_open() || !first.is_open() || first.rows() != 1 || first.next(report) != R2U2_DONE) return false;
    mltl::Handle &same = first;
    first = std::move(same);
    const mltl::Handle third(std::move(first));
    return !first.is_open() && third.is_open() && third.rows() == 1;
}

// Whether rows that come at once have the reports of single ones.
static bool is_batched(const std::vector<char> &program) {
    const std::array<std::int64_t, 6> numbers{{0, 1, 0, 1, 0, 2}};
    mltl::Handle handle;
    r2u2_report reports[8];
    r2u2_batch batch{};
    return handle.open(program) == R2U2_DONE && handle.row_many(numbers, reports, 8, batch) == R2U2_DONE && batch.rows == 2 &&
           batch.reports == 2 && reports[1].time == 1 && handle.row_many(numbers, reports, 3, batch) == R2U2_NO_ROOM;
}

static int run(const char *name) {
    std::ifstream file(name, std::ios::binary);
    const std::vector<char> program{std::istreambuf_iterator<char>(file), {}};
    const std::vector<Row> rows{{{1, 0}}, {{0, 1}}, {{1, 0}}, {{0, 0}}, {{0, 0}}, {{0, 0}}};
    mltl::Monitor first(program, "# request,grant"), monitor = std::move(first);
    mltl::Handle handle;
    mltl::Report report;
    if (!is_refused(monitor) || !is_described(monitor, program) || !is_closed(handle)) return 1;
    if (!is_checked(program, rows[1]) || !is_batched(program) || !is_moved(program, rows[1]) || !takes_pointers(program)) return 1;
    monitor.row(rows[1]);
    monitor.reset();
    if (monitor.rows() != 0 || monitor.next(report)) return 1;
    for (const Row &row : rows) {
        monitor.row(row);
        while (monitor.next(report))
            std::cout << monitor.name(report.output) << ':' << report.time << ',' << mltl::text(report.word) << '\n';
    }
    return 0;
}

int main(int count, char **arguments) {
    try {
        return count == 2 ? run(arguments[1]) : 1;
    } catch (const mltl::Error &error) {
        std::cerr << "grants: " << error.what() << '\n';
        return 3;
    }
}
