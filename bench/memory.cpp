// Rows and reports in memory: the library and the plain monitor over the same rows, without a file or a print.
//
//     memory PROGRAM TRACE library|many|rows|plain
//                                                 how many rows and reports there were, and a sum that is the same for all
//     memory PROGRAM TRACE times                  nanoseconds of rows and of the reports after a row, by the library
//     memory PROGRAM TRACE last                   the most steps and reports of a row, and nanoseconds of the last row with its reports
//     memory PROGRAM TRACE once                   all rows once, for the instructions of the last
//
// `many` asks for 64 reports at a time, `rows` takes rows by calls of r2u2_row_many, with room for 64 reports or those of one
// row. bench/memory counts the instructions of `by_library`, `by_many`, `by_rows`, `by_plain` and `by_last`.
// What an empty timer shows is subtracted.
#define PLAIN_IN_MEMORY
#include "plain.cpp"

#include <algorithm>
#include <chrono>
#include <ctime>

#include "r2u2.h"

namespace {

struct Sum {
    uint64_t reports = 0, sum = 0;

    void add(uint64_t output, uint64_t time, uint64_t word) { reports++, sum = sum * 31 + output * 7 + time * 5 + word; }
};

// The number that r2u2.h has for the word of an output.
uint64_t number_of(const char *word) {
    switch (*word) {
    case 'F': return R2U2_FALSE;
    case 'T': return R2U2_TRUE;
    case 'v': return R2U2_VERIFIED;
    default: return word[2] == 'a' ? R2U2_INACTIVE : R2U2_INVALID;
    }
}

using Rows = std::vector<std::vector<int64_t>>;

Rows read_rows(const char *path, uint32_t width) {
    std::ifstream file(path);
    std::string line;
    std::vector<int64_t> fields(width);
    Rows rows;
    while (std::getline(file, line))
        if (read_row(line.data(), line.data() + line.size(), fields)) rows.push_back(fields);
    return rows;
}

void take(r2u2 *monitor, const std::vector<int64_t> &row) {
    r2u2_row_fault fault{};
    if (r2u2_row(monitor, row.data(), row.size(), &fault) != R2U2_DONE) stop("not taken:", "a row");
}

void drain(r2u2 *monitor, Sum *sum) {
    r2u2_report report{};
    while (r2u2_next(monitor, R2U2_EACH, &report) == R2U2_DONE) sum->add(report.output, report.time, report.word);
}

uint64_t processor_time() {
    timespec now{};
    clock_gettime(CLOCK_THREAD_CPUTIME_ID, &now);
    return uint64_t(now.tv_sec) * 1000000000 + uint64_t(now.tv_nsec);
}

// The nanoseconds that some work takes, with those of the timer; of long work those of the processor, if these are fewer.
template <class Work>
uint64_t timed(Work work, bool is_long = false) {
    uint64_t used = is_long ? processor_time() : 0;
    auto begun = std::chrono::steady_clock::now();
    work();
    std::chrono::nanoseconds taken = std::chrono::steady_clock::now() - begun;
    return is_long ? std::min(uint64_t(taken.count()), processor_time() - used) : uint64_t(taken.count());
}

// The least that the timer shows where nothing is done.
uint64_t empty_timer() {
    uint64_t least = UINT64_MAX;
    for (int k = 0; k < 100000; k++) least = std::min(least, timed([] {}));
    return least;
}

// The least nanoseconds of the rounds for each row, and the mean and the most over all rows.
struct Times {
    std::vector<uint64_t> least;
    uint64_t timer = empty_timer();
    bool is_long = false; // others may run on the processor meanwhile

    explicit Times(size_t rows) : least(rows, UINT64_MAX) {}

    template <class Work>
    void note(size_t row, Work work) {
        uint64_t taken = timed(work, is_long);
        least[row] = std::min(least[row], taken - std::min(timer, taken));
    }

    void print(const char *what) const {
        uint64_t sum = 0;
        for (uint64_t one : least) sum += one;
        std::printf("%s: mean %.0f ns, most %llu ns\n", what, double(sum) / double(least.size()), (unsigned long long)most());
    }

    uint64_t most() const { return *std::max_element(least.begin(), least.end()); }
};

void print_times(r2u2 *monitor, const Rows &rows) {
    Times row_times(rows.size()), report_times(rows.size());
    Sum sum;
    for (int round = 0; round < 5; round++, r2u2_reset(monitor))
        for (size_t k = 0; k < rows.size(); k++) {
            row_times.note(k, [&] { take(monitor, rows[k]); });
            report_times.note(k, [&] { drain(monitor, &sum); });
        }
    row_times.print("row");
    report_times.print("its reports");
}

// The rounds take about a second, and are at least 20 and at most 2,000.
int rounds_for(size_t rows) { return int(std::min<size_t>(2000, std::max<size_t>(20, 2000000 / rows))); }

}

extern "C" __attribute__((noinline)) void by_last(r2u2 *monitor, const std::vector<int64_t> *row, Sum *sum) {
    take(monitor, *row), drain(monitor, sum);
}

namespace {

void take_last(r2u2 *monitor, const Rows &rows, Times *times, Sum *sum) {
    for (size_t k = 0; k + 1 < rows.size(); k++) take(monitor, rows[k]), drain(monitor, sum);
    times->note(0, [&] { by_last(monitor, &rows.back(), sum); });
}

void print_last(r2u2 *monitor, const Rows &rows) {
    Times times(1);
    times.is_long = r2u2_most_reports(monitor) > 10000;
    Sum sum;
    for (int round = rounds_for(rows.size()); round > 0; round--, r2u2_reset(monitor)) take_last(monitor, rows, &times, &sum);
    std::printf("%llu %llu %llu\n", (unsigned long long)r2u2_steps(monitor), (unsigned long long)r2u2_most_reports(monitor),
                (unsigned long long)times.most());
}

void run_once(r2u2 *monitor, const Rows &rows) {
    Times times(1);
    Sum sum;
    take_last(monitor, rows, &times, &sum);
}

}

extern "C" __attribute__((noinline)) void by_library(r2u2 *monitor, const Rows *rows, Sum *sum) {
    for (const std::vector<int64_t> &row : *rows) take(monitor, row), drain(monitor, sum);
}

extern "C" __attribute__((noinline)) void by_many(r2u2 *monitor, const Rows *rows, Sum *sum) {
    r2u2_report reports[64] = {};
    for (const std::vector<int64_t> &row : *rows) {
        take(monitor, row);
        for (size_t count = 64; count == 64;) {
            if (r2u2_next_many(monitor, R2U2_EACH, reports, 64, &count) != R2U2_DONE) stop("no reports of", "a row");
            for (size_t k = 0; k < count; k++) sum->add(reports[k].output, reports[k].time, reports[k].word);
        }
    }
}

extern "C" __attribute__((noinline)) void by_rows(r2u2 *monitor, const std::vector<int64_t> *numbers, std::vector<r2u2_report> *reports,
                                                  Sum *sum) {
    r2u2_row_fault fault{};
    r2u2_batch batch{};
    size_t width = r2u2_width(monitor);
    for (size_t at = 0; at < numbers->size(); at += batch.rows * width) {
        if (r2u2_row_many(monitor, R2U2_EACH, numbers->data() + at, numbers->size() - at, reports->data(), reports->size(), &batch, &fault) != R2U2_DONE)
            stop("not taken:", "rows");
        for (size_t k = 0; k < batch.reports; k++) sum->add((*reports)[k].output, (*reports)[k].time, (*reports)[k].word);
    }
}

extern "C" __attribute__((noinline)) void by_plain(Monitor *monitor, const Rows *rows, Sum *sum) {
    for (const std::vector<int64_t> &row : *rows) {
        monitor->row.take(row), monitor->future.take(monitor->row), monitor->past.take(monitor->row, monitor->rows);
        monitor->rows++;
        for (size_t k = 0; k < monitor->program.outputs.size(); k++) {
            Output &output = monitor->program.outputs[k];
            while (const char *word = monitor->word_of(output)) sum->add(k, output.next++, number_of(word));
        }
    }
}

namespace {

void take_rows(r2u2 *monitor, const Rows &rows, Sum *sum) {
    std::vector<int64_t> numbers;
    for (const std::vector<int64_t> &row : rows) numbers.insert(numbers.end(), row.begin(), row.end());
    std::vector<r2u2_report> reports(std::max<uint64_t>(64, r2u2_most_reports(monitor)));
    by_rows(monitor, &numbers, &reports, sum);
}

}

int main(int count, char **words) {
    if (count != 4) stop("usage:", "memory PROGRAM TRACE library|many|rows|plain|times|last|once");
    std::string how = words[3];
    Monitor plain(read_program(words[1]));
    std::ifstream file(words[1], std::ios::binary);
    std::string program{std::istreambuf_iterator<char>(file), {}};
    Rows rows = read_rows(words[2], plain.program.width);
    r2u2 monitor{};
    r2u2_fault fault{};
    Sum sum;
    if (r2u2_open(&monitor, reinterpret_cast<const uint8_t *>(program.data()), program.size(), &fault) != R2U2_DONE) stop("refused:", fault.text);
    if (how == "times") print_times(&monitor, rows);
    else if (how == "last") print_last(&monitor, rows);
    else if (how == "once") run_once(&monitor, rows);
    else {
        if (how == "plain") by_plain(&plain, &rows, &sum);
        else if (how == "many") by_many(&monitor, &rows, &sum);
        else if (how == "rows") take_rows(&monitor, rows, &sum);
        else by_library(&monitor, &rows, &sum);
        std::printf("%zu rows, %llu reports, sum %llu\n", rows.size(), (unsigned long long)sum.reports, (unsigned long long)sum.sum);
    }
    r2u2_close(&monitor);
}
