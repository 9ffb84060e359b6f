// A plain monitor, by which r2u2 is measured: it reads an observer program and a trace without a header, and prints the
// lines that r2u2 prints, one write a line. Nothing of it is proved, and it takes its input to be sound.
//
//     plain PROGRAM TRACE
#include <cstdint>
#include <cstdio>
#include <cstdlib>
#include <cstring>
#include <deque>
#include <fcntl.h>
#include <fstream>
#include <iterator>
#include <string>
#include <unistd.h>
#include <vector>

namespace {

enum class Truth : uint8_t { False, True, Unknown };

struct Instruction {
    uint8_t op;
    uint32_t left, right, low, high, size;
    int64_t value;
};

struct Output {
    std::string name;
    bool contract, past;
    uint32_t left, right;
    uint64_t next;
};

struct Program {
    uint32_t width;
    std::vector<Instruction> bz, ft, pt;
    std::vector<Output> outputs;
};

[[noreturn]] void stop(const char *why, const char *what) {
    std::fprintf(stderr, "plain: %s %s\n", why, what);
    std::exit(1);
}

uint32_t number_at(const std::string &bytes, size_t place) {
    uint32_t number;
    if (place + sizeof number > bytes.size()) stop("short", "program");
    std::memcpy(&number, bytes.data() + place, sizeof number);
    return number;
}

std::vector<Instruction> instructions(const std::string &bytes, size_t &place, uint32_t count) {
    std::vector<Instruction> found;
    for (; count; count--, place += 24) {
        Instruction it{uint8_t(number_at(bytes, place)), 0, 0, 0, 0, 0, 0};
        it.left = number_at(bytes, place + 4), it.right = number_at(bytes, place + 8);
        it.low = number_at(bytes, place + 12), it.high = number_at(bytes, place + 16), it.size = number_at(bytes, place + 20);
        std::memcpy(&it.value, bytes.data() + place + 8, sizeof it.value);
        found.push_back(it);
    }
    return found;
}

Program read_program(const char *path) {
    std::ifstream file(path, std::ios::binary);
    if (!file) stop("cannot open", path);
    std::string bytes{std::istreambuf_iterator<char>(file), {}};
    if (bytes.compare(0, 4, "MLTL") != 0) stop("no program:", path);
    size_t place = number_at(bytes, 4) == 2 ? 40 : 32;
    Program program{number_at(bytes, 8), {}, {}, {}, {}};
    uint32_t signals = place == 40 ? number_at(bytes, 32) : 0;
    program.bz = instructions(bytes, place, number_at(bytes, 12));
    program.ft = instructions(bytes, place, number_at(bytes, 16));
    program.pt = instructions(bytes, place, number_at(bytes, 20));
    uint32_t count = number_at(bytes, 24);
    size_t name = place + 24 * size_t(count) + 8 * size_t(signals);
    for (; count; count--, place += 24) {
        uint32_t kind = number_at(bytes, place), length = number_at(bytes, place + 12);
        program.outputs.push_back({bytes.substr(name, length), (kind & 0xff) == 0x31, (kind >> 8 & 0xff) == 1,
                                   number_at(bytes, place + 4), number_at(bytes, place + 8), 0});
        name += length;
    }
    return program;
}

// The whole numbers and truths of one row.
struct Row {
    const std::vector<Instruction> &bz;
    std::vector<int64_t> values;

    explicit Row(const Program &program) : bz(program.bz), values(bz.size()) {}

    void take(const std::vector<int64_t> &fields) {
        for (size_t k = 0; k < bz.size(); k++) values[k] = value(bz[k], fields);
    }

    int64_t value(const Instruction &it, const std::vector<int64_t> &fields) const {
        switch (it.op) {
        case 0x01: return fields[it.left];
        case 0x02: return fields[it.left];
        case 0x03: return it.value;
        case 0x04: return -values[it.left];
        case 0x05: return values[it.left] + values[it.right];
        case 0x06: return values[it.left] - values[it.right];
        case 0x07: return values[it.left] * values[it.right];
        case 0x08: return values[it.left] / values[it.right];
        case 0x09: return values[it.left] % values[it.right];
        case 0x0a: return values[it.left] == values[it.right];
        case 0x0b: return values[it.left] < values[it.right];
        default: return values[it.left] <= values[it.right];
        }
    }
};

// The verdicts of one formula for the last times before its frontier.
struct Queue {
    std::vector<uint8_t> ring;
    uint64_t mask, frontier = 0;

    explicit Queue(uint32_t size) {
        uint64_t room = 1;
        while (room < size) room *= 2;
        ring.resize(room), mask = room - 1;
    }

    void push(bool verdict) { ring[frontier++ & mask] = verdict; }

    Truth at(uint64_t time) const { return time < frontier ? Truth(ring[time & mask]) : Truth::Unknown; }
};

// Formulas that look ahead: each row decides as many times as it can.
struct Future {
    const std::vector<Instruction> &ft;
    std::vector<Queue> queues;
    std::vector<uint64_t> scanned, missed;

    explicit Future(const Program &program) : ft(program.ft), scanned(ft.size()), missed(ft.size()) {
        for (const Instruction &it : ft) queues.emplace_back(it.size);
    }

    void take(const Row &row) {
        for (size_t k = 0; k < ft.size(); k++) {
            const Instruction &it = ft[k];
            switch (it.op) {
            case 0x10: queues[k].push(true); break;
            case 0x11: queues[k].push(row.values[it.left]); break;
            case 0x12: negate(queues[k], queues[it.left]); break;
            case 0x13: both(queues[k], queues[it.left], queues[it.right]); break;
            default: until(k, it, queues[it.left], queues[it.right]);
            }
        }
    }

    static void negate(Queue &own, const Queue &operand) {
        while (own.frontier < operand.frontier) own.push(operand.at(own.frontier) == Truth::False);
    }

    static void both(Queue &own, const Queue &left, const Queue &right) {
        for (;;) {
            Truth one = left.at(own.frontier), other = right.at(own.frontier);
            if (one == Truth::False || other == Truth::False) own.push(false);
            else if (one == Truth::True && other == Truth::True) own.push(true);
            else return;
        }
    }

    // From low to `scanned` the left operand holds and the right one doesn't; up to `missed` the right one doesn't.
    void until(size_t k, const Instruction &it, const Queue &left, const Queue &right) {
        Queue &own = queues[k];
        uint64_t &place = scanned[k], &miss = missed[k];
        for (;;) {
            uint64_t first = own.frontier + it.low, last = own.frontier + it.high;
            if (place < first) place = first;
            while (place <= last && right.at(place) == Truth::False && left.at(place) == Truth::True) place++;
            if (place > last) {
                own.push(false);
                continue;
            }
            Truth hit = right.at(place);
            if (hit == Truth::True) own.push(true);
            else if (hit == Truth::Unknown) return;
            else if (left.at(place) == Truth::False) own.push(false);
            else {
                if (miss < place) miss = place;
                while (miss <= last && right.at(miss) == Truth::False) miss++;
                if (miss <= last) return;
                own.push(false);
            }
        }
    }
};

// Formulas that look back: each row decides its own time.
struct Past {
    const std::vector<Instruction> &pt;
    std::vector<uint8_t> holds;
    std::vector<std::deque<uint64_t>> hits;

    explicit Past(const Program &program) : pt(program.pt), holds(pt.size()), hits(pt.size()) {}

    void take(const Row &row, uint64_t time) {
        for (size_t k = 0; k < pt.size(); k++) {
            const Instruction &it = pt[k];
            switch (it.op) {
            case 0x20: holds[k] = true; break;
            case 0x21: holds[k] = row.values[it.left] != 0; break;
            case 0x22: holds[k] = !holds[it.left]; break;
            case 0x23: holds[k] = holds[it.left] && holds[it.right]; break;
            default: holds[k] = since(it, hits[k], holds[it.left], holds[it.right], time);
            }
        }
    }

    // The hits are the times of the right operand after which the left one has held.
    static bool since(const Instruction &it, std::deque<uint64_t> &hits, bool left, bool right, uint64_t time) {
        if (!left) hits.clear();
        if (right) hits.push_back(time);
        while (!hits.empty() && hits.front() + it.high < time) hits.pop_front();
        return !hits.empty() && hits.front() + it.low <= time;
    }
};

struct Monitor {
    Program program;
    Row row;
    Future future;
    Past past;
    uint64_t rows = 0;
    std::string line;

    explicit Monitor(Program it) : program(std::move(it)), row(program), future(program), past(program) {}

    void take(const std::vector<int64_t> &fields) {
        row.take(fields), future.take(row), past.take(row, rows);
        rows++;
        for (Output &output : program.outputs)
            while (const char *word = word_of(output)) tell(output, word);
    }

    Truth at(const Output &output, uint32_t formula) const {
        if (!output.past) return future.queues[formula].at(output.next);
        return output.next < rows ? Truth(past.holds[formula]) : Truth::Unknown;
    }

    const char *word_of(const Output &output) const {
        Truth left = at(output, output.left);
        if (!output.contract) return left == Truth::Unknown ? nullptr : left == Truth::True ? "T" : "F";
        if (left != Truth::True) return left == Truth::False ? "inactive" : nullptr;
        Truth right = at(output, output.right);
        return right == Truth::Unknown ? nullptr : right == Truth::True ? "verified" : "invalid";
    }

    void tell(Output &output, const char *word) {
        char time[24];
        line.assign(output.name).append(time, std::snprintf(time, sizeof time, ":%llu,", (unsigned long long)output.next));
        line.append(word).push_back('\n');
        output.next++;
        if (write(1, line.data(), line.size()) != ssize_t(line.size())) stop("cannot write", "output");
    }
};

// Reads a line's fields, as many as the program has columns; a blank line has none.
bool read_row(const char *at, const char *end, std::vector<int64_t> &fields) {
    while (at < end && (*at == ' ' || *at == '\t' || *at == '\r')) at++;
    if (at == end) return false;
    for (int64_t &field : fields) {
        while (at < end && (*at == ' ' || *at == '\t' || *at == '+')) at++;
        bool minus = at < end && *at == '-';
        at += minus;
        int64_t number = 0;
        for (; at < end && *at >= '0' && *at <= '9'; at++) number = 10 * number + (*at - '0');
        field = minus ? -number : number;
        while (at < end && *at != ',') at++;
        at += at < end;
    }
    return true;
}

#ifndef PLAIN_IN_MEMORY

void watch(Monitor &monitor, int trace) {
    std::vector<int64_t> fields(monitor.program.width);
    std::vector<char> block(1 << 16);
    std::string rest;
    auto take = [&](const char *from, const char *to) {
        if (read_row(from, to, fields)) monitor.take(fields);
    };
    for (ssize_t count; (count = read(trace, block.data(), block.size())) > 0;) {
        const char *from = block.data(), *end = from + count;
        while (const char *to = static_cast<const char *>(std::memchr(from, '\n', end - from))) {
            if (rest.empty()) take(from, to);
            else rest.append(from, to), take(rest.data(), rest.data() + rest.size()), rest.clear();
            from = to + 1;
        }
        rest.append(from, end);
    }
    take(rest.data(), rest.data() + rest.size());
}

#endif

}

#ifndef PLAIN_IN_MEMORY

int main(int count, char **words) {
    if (count != 3) stop("usage:", "plain PROGRAM TRACE");
    Monitor monitor(read_program(words[1]));
    int trace = open(words[2], O_RDONLY);
    if (trace < 0) stop("cannot open", words[2]);
    watch(monitor, trace);
}

#endif
