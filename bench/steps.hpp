// The steps of each row as the library's contracts count them, by a model of its engines that keeps all runs. It counts, and
// proves nothing.
#ifndef STEPS_HPP
#define STEPS_HPP

#include <algorithm>

namespace {

// What a read of a queue shows: the end of a run and its verdict, or nothing.
struct Seen {
    bool some;
    uint64_t upto;
    bool value;
};

struct Runs {
    struct Run {
        uint64_t upto;
        bool value;
    };
    std::vector<Run> runs;

    uint64_t frontier() const { return runs.empty() ? 0 : runs.back().upto + 1; }

    void write(uint64_t upto, bool value, uint64_t &steps) {
        steps++;
        if (!runs.empty() && runs.back().value == value) runs.back().upto = upto;
        else runs.push_back({upto, value});
    }

    Seen read(uint64_t from, uint64_t &steps) const {
        steps++;
        if (frontier() <= from) return {false, 0, false};
        auto newest = std::prev(runs.end());
        if (runs.size() > 1 && from <= std::prev(newest)->upto)
            newest = std::lower_bound(runs.begin(), runs.end(), from, [](const Run &run, uint64_t time) { return run.upto < time; });
        return {true, newest->upto, newest->value};
    }
};

// What a row takes: all its steps, its reports, and the steps to find these.
struct Cost {
    uint64_t steps = 0, reports = 0, telling = 0;
};

// The engines and the search for reports.
struct Counter {
    const Program &program;
    Row row;
    std::vector<Runs> queues;
    std::vector<uint64_t> reads_at, next;
    Past past;
    uint64_t rows = 0;

    explicit Counter(const Program &it) : program(it), row(it), queues(it.ft.size()), next(it.outputs.size()), past(it) {
        for (const Instruction &op : it.ft) reads_at.push_back(op.op == 0x14 ? op.low : 0);
    }

    // From the question whether the row can be taken to its last report.
    Cost take(const std::vector<int64_t> &fields) {
        uint64_t steps = (rows ? 0 : program.outputs.size()) + 2 * program.bz.size();
        row.take(fields);
        for (size_t k = 0; k < program.ft.size(); k++) future(k, steps);
        past.take(row, rows++);
        for (const Instruction &op : program.pt) steps += op.op < 0x24 ? 1 : 3;
        Cost cost = tell();
        cost.steps = steps + cost.telling;
        return cost;
    }

    void future(size_t k, uint64_t &steps) {
        const Instruction &op = program.ft[k];
        Runs &own = queues[k];
        switch (op.op) {
        case 0x10: return own.write(own.frontier(), true, steps);
        case 0x11: return own.write(own.frontier(), row.values[op.left] != 0, steps);
        case 0x12: return negate(own, queues[op.left], steps);
        case 0x13: return both(own, queues[op.left], queues[op.right], steps);
        default: return until(k, op, queues[op.left], queues[op.right], steps);
        }
    }

    static void negate(Runs &own, const Runs &operand, uint64_t &steps) {
        for (Seen seen; (seen = operand.read(own.frontier(), steps)).some;) own.write(seen.upto, !seen.value, steps);
    }

    static void both(Runs &own, const Runs &left, const Runs &right, uint64_t &steps) {
        for (;;) {
            Seen one = left.read(own.frontier(), steps);
            if (one.some && !one.value) {
                own.write(one.upto, false, steps);
                continue;
            }
            Seen other = right.read(own.frontier(), steps);
            if (!other.some || (!one.some && other.value)) return;
            own.write(one.some && other.value ? std::min(one.upto, other.upto) : other.upto, other.value, steps);
        }
    }

    void until(size_t k, const Instruction &op, const Runs &left, const Runs &right, uint64_t &steps) {
        Runs &own = queues[k];
        uint64_t &at = reads_at[k], seen = at;
        for (;;) {
            uint64_t from = own.frontier();
            if (from + op.high < seen) {
                at = std::max(at, seen - (op.high - op.low));
                own.write(seen - 1 - op.high, false, steps);
            } else if (at == seen) {
                Seen found = right.read(at, steps);
                if (!found.some) return;
                seen = found.upto + 1;
                if (found.value) own.write(found.upto - op.low, true, steps), at = seen;
            } else if (Seen found = left.read(at, steps); found.some) {
                uint64_t last = std::min(found.upto, seen - 1);
                at = last + 1;
                if (!found.value) own.write(last - op.low, false, steps);
            } else {
                found = right.read(seen, steps);
                if (!found.some || found.value) return;
                seen = found.upto + 1;
            }
        }
    }

    // The run of an output's word from a time on, if it is known.
    Seen word(const Output &output, uint64_t from) const {
        Seen left = formula(output, output.left, from);
        if (!output.contract || !left.some || !left.value) return left;
        Seen right = formula(output, output.right, from);
        return {right.some, std::min(left.upto, right.upto), right.value};
    }

    Seen formula(const Output &output, uint32_t k, uint64_t from) const {
        uint64_t ignored = 0;
        if (!output.past) return queues[k].read(from, ignored);
        return {from < rows, from, past.holds[k] != 0};
    }

    // All reports are asked for: a step for each question, and one for each output that it looks at.
    Cost tell() {
        Cost cost;
        cost.telling = 1;
        for (size_t k = 0; k < program.outputs.size(); k++) {
            const Output &output = program.outputs[k];
            for (Seen run = {false, 0, false};; next[k]++, cost.reports++, cost.telling++) {
                if (next[k] == rows && run.some) break; // no further time can be known
                if (run.some && next[k] <= run.upto) continue;
                cost.telling++;
                run = word(output, next[k]);
                if (!run.some) break;
            }
        }
        return cost;
    }
};

}

#endif
