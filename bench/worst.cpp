// Finds a row that takes many steps, and prints a trace that ends with it.
//
//     worst PROGRAM TRIES steps|reports     searches logs
//     worst PROGRAM TRACE steps|reports     searches the rows of a trace
//
// With `steps` the row with the most steps of instructions, whatever it reports; with `reports` the row whose steps and reports
// take most together, where a report counts as three steps. On the error output it prints the steps of this row, the reports,
// and the steps to find these.
//
// A log gives each column segments of a length that the program's windows suggest, in which it is true, false or alternates.
// The search changes one column's segments at a time and keeps a log that takes more. It is the same each time.
#define PLAIN_IN_MEMORY
#include "plain.cpp"
#include "steps.hpp"

#include <random>
#include <set>

namespace {

enum class Shape : uint8_t { False, True, Even, Odd, Pairs, Count };

struct Segment {
    uint64_t length;
    Shape shape;

    bool at(uint64_t time) const {
        switch (shape) {
        case Shape::False: return false;
        case Shape::True: return true;
        case Shape::Even: return time % 2 == 0;
        case Shape::Odd: return time % 2 == 1;
        default: return time / 2 % 2 == 0;
        }
    }
};

using Column = std::vector<Segment>;

enum class Goal { Steps, Reports };

struct Worst {
    uint64_t row = 0;
    Cost cost;

    uint64_t weight(Goal goal) const {
        return goal == Goal::Steps ? cost.steps - cost.telling : cost.steps + 3 * cost.reports;
    }
};

// The worst row but the first, which looks at all outputs once more.
struct Finder {
    Counter counter;
    Goal goal;
    Worst found;

    Finder(const Program &program, Goal it) : counter(program), goal(it) {}

    void take(const std::vector<int64_t> &numbers) {
        Worst one{counter.rows, counter.take(numbers)};
        if (one.row > 0 && one.weight(goal) > found.weight(goal)) found = one;
    }
};

struct Search {
    const Program &program;
    Goal goal;
    std::mt19937_64 dice{7};
    std::vector<uint64_t> lengths;
    std::vector<int64_t> low, high; // the numbers of each column where it is false and true
    std::vector<uint32_t> read;     // the columns that are read
    uint64_t most_rows = 0;

    Search(const Program &it, Goal sought) : program(it), goal(sought), low(it.width, 0), high(it.width, 1) {
        std::set<uint64_t> found{1, 2, 3};
        uint64_t reach = 0;
        for (const std::vector<Instruction> *part : {&it.ft, &it.pt}) {
            std::vector<uint64_t> reaches;
            for (const Instruction &op : *part) {
                reaches.push_back(reach_of(op, reaches));
                reach = std::max(reach, reaches.back());
                if ((op.op & 0x0f) == 4) found.insert({op.low + 1, op.high, op.high + 1});
            }
        }
        found.insert({reach, reach + 1});
        lengths.assign(found.begin(), found.end());
        most_rows = std::min<uint64_t>(2 * reach + 16, 400000);
        columns();
    }

    // How many rows an instruction waits for, or looks back, at most.
    static uint64_t reach_of(const Instruction &op, const std::vector<uint64_t> &reaches) {
        if ((op.op & 0x0f) < 2) return 0;
        uint64_t left = reaches[op.left], right = (op.op & 0x0f) == 2 ? 0 : reaches[op.right];
        return std::max(left, right) + ((op.op & 0x0f) == 4 ? op.high : 0);
    }

    // Numbers on both sides of the constants that a column's program has.
    void columns() {
        std::set<int64_t> constants;
        std::set<uint32_t> all;
        for (const Instruction &op : program.bz)
            if (op.op == 0x03) constants.insert(op.value);
        for (const Instruction &op : program.bz)
            if (op.op <= 0x02) all.insert(op.left);
        for (const Instruction &op : program.bz)
            if (op.op == 0x01) low[op.left] = constants.empty() ? 1 : *constants.rbegin() + 1, high[op.left] = constants.empty() ? 0 : *constants.begin() - 1;
        read.assign(all.begin(), all.end());
    }

    uint64_t number(uint64_t below) { return dice() % below; }

    // Up to 12 segments, or two: most verdicts wait while a row stays the same, and come at once when it changes.
    Column column() {
        Column made;
        if (number(2)) return {{lengths.back(), Shape(number(2))}, {most_rows, Shape(number(2))}};
        for (uint64_t left = most_rows; left > 0;) {
            uint64_t length = std::min(left, lengths[number(lengths.size())]);
            made.push_back({length, Shape(number(uint64_t(Shape::Count)))});
            left -= length;
            if (made.size() == 12) made.back().length += left, left = 0;
        }
        return made;
    }

    // The numbers of a log's rows, as far as the columns are read.
    std::vector<int64_t> row(const std::vector<Column> &log, std::vector<size_t> &at, std::vector<uint64_t> &left, uint64_t time) const {
        std::vector<int64_t> numbers(program.width);
        for (size_t k = 0; k < read.size(); k++) {
            while (left[k] == 0 && at[k] + 1 < log[k].size()) left[k] = log[k][++at[k]].length;
            left[k] -= left[k] > 0;
            numbers[read[k]] = log[k][at[k]].at(time) ? high[read[k]] : low[read[k]];
        }
        return numbers;
    }

    template <class Take>
    void run(const std::vector<Column> &log, uint64_t rows, Take take) const {
        std::vector<size_t> at(log.size());
        std::vector<uint64_t> left(log.size());
        for (size_t k = 0; k < log.size(); k++) left[k] = log[k][0].length;
        for (uint64_t time = 0; time < rows; time++) take(row(log, at, left, time), time);
    }

    Worst worst(const std::vector<Column> &log) const {
        Finder finder(program, goal);
        run(log, most_rows, [&](const std::vector<int64_t> &numbers, uint64_t) { finder.take(numbers); });
        return finder.found;
    }

    std::vector<Column> log() {
        std::vector<Column> made(read.size());
        for (Column &one : made) one = column();
        return made;
    }

    // Another log: other segments of one column, or one segment of it changed, or all columns as the first.
    void change(std::vector<Column> &log) {
        if (log.empty()) return;
        Column &one = log[number(log.size())];
        Segment &part = one[number(one.size())];
        switch (number(5)) {
        case 0: one = column(); break;
        case 1: part.shape = Shape(number(uint64_t(Shape::Count))); break;
        case 2: part.length = lengths[number(lengths.size())]; break;
        case 3: one = log[number(log.size())]; break;
        default: part.length = part.length > 1 && number(2) ? part.length - 1 : part.length + 1;
        }
    }
};

void print_row(const std::vector<int64_t> &numbers) {
    for (size_t k = 0; k < numbers.size(); k++) std::printf("%s%lld", k ? "," : "", (long long)numbers[k]);
    std::printf("\n");
}

void print_cost(const Cost &cost) {
    std::fprintf(stderr, "%llu %llu %llu\n", (unsigned long long)cost.steps, (unsigned long long)cost.reports,
                 (unsigned long long)cost.telling);
}

void search_logs(const Program &program, Goal goal, long tries) {
    Search search(program, goal);
    std::vector<Column> best = search.log();
    Worst most = search.worst(best);
    for (long k = 1; k < tries; k++) {
        std::vector<Column> log = k < tries / 4 ? search.log() : best;
        for (uint64_t n = search.number(3) + 1; k >= tries / 4 && n > 0; n--) search.change(log);
        Worst found = search.worst(log);
        if (found.weight(goal) >= most.weight(goal)) most = found, best = log;
    }
    search.run(best, most.row + 1, [](const std::vector<int64_t> &numbers, uint64_t) { print_row(numbers); });
    print_cost(most.cost);
}

void search_trace(const Program &program, Goal goal, const char *path) {
    std::ifstream file(path);
    std::string line;
    std::vector<std::vector<int64_t>> rows;
    Finder finder(program, goal);
    for (std::vector<int64_t> fields(program.width); std::getline(file, line);)
        if (read_row(line.data(), line.data() + line.size(), fields)) finder.take(fields), rows.push_back(fields);
    for (uint64_t k = 0; k <= finder.found.row && k < rows.size(); k++) print_row(rows[k]);
    print_cost(finder.found.cost);
}

}

int main(int count, char **words) {
    std::string sought = count == 4 ? words[3] : "";
    if (sought != "steps" && sought != "reports") stop("usage:", "worst PROGRAM TRIES|TRACE steps|reports");
    Goal goal = sought == "steps" ? Goal::Steps : Goal::Reports;
    Program program = read_program(words[1]);
    long tries = std::atol(words[2]);
    if (tries > 0) search_logs(program, goal, tries);
    else search_trace(program, goal, words[2]);
}
