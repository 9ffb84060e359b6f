// r2u2.hpp: the monitor as a class that closes itself. C++11. It includes r2u2_checked.h.
//
// mltl::Handle never throws: its calls return the codes of r2u2.h, so it serves where exceptions are turned off. mltl::Monitor
// has the same monitor with exceptions, where the compiler has them. Programs, headers and rows are any contiguous ranges,
// such as std::vector, std::array and std::string, or a pointer and a count.
#ifndef R2U2_HPP
#define R2U2_HPP

#include <cstddef>
#include <cstdint>
#include <string>
#include <vector>

#include "r2u2_checked.h"

#if defined(__cpp_exceptions) || defined(__EXCEPTIONS)
#include <stdexcept>
#define R2U2_HAS_EXCEPTIONS 1
#endif

namespace mltl {

struct Report {
    std::uint32_t output = 0;
    std::uint64_t time = 0;
    r2u2_word word = R2U2_FALSE;
};

struct Signal {
    std::string name;
    std::uint32_t column = 0;
    r2u2_signal_kind kind = R2U2_WHOLE;
};

// Returns a word as r2u2 prints it.
inline const char *text(r2u2_word word) { return r2u2_word_text(word); }

// A monitor, or none yet. It may be moved and not copied; the one that it is moved from has no monitor afterward, and a monitor
// that the other had before is closed.
class Handle {
public:
    Handle() noexcept = default;
    Handle(Handle &&other) noexcept : it(other.it) { other.it = r2u2{}; }
    Handle(const Handle &) = delete;
    Handle &operator=(const Handle &) = delete;

    Handle &operator=(Handle &&other) noexcept {
        if (this != &other) {
            r2u2_close(&it);
            it = other.it;
            other.it = r2u2{};
        }
        return *this;
    }

    ~Handle() { r2u2_close(&it); }

    // Opens a program; its rows have the columns that it was compiled for.
    std::uint32_t open(const std::uint8_t *program, std::size_t count, r2u2_fault *fault = nullptr) noexcept {
        return r2u2_checked_open(&it, program, count, fault);
    }

    template <class Program>
    std::uint32_t open(const Program &program, r2u2_fault *fault = nullptr) noexcept {
        return open(bytes_of(program), program.size(), fault);
    }

    // Opens a program under a header, as "# request,grant".
    std::uint32_t open_under(const std::uint8_t *program, std::size_t count, const char *header, std::size_t header_count,
                             r2u2_fault *fault = nullptr) noexcept {
        return r2u2_checked_open_under(&it, program, count, header, header_count, fault);
    }

    template <class Program, class Header>
    std::uint32_t open_under(const Program &program, const Header &header, r2u2_fault *fault = nullptr) noexcept {
        return open_under(bytes_of(program), program.size(), header.data(), header.size(), fault);
    }

    // Opens a program if its SHA-256 is the digest: else R2U2_DAMAGED.
    std::uint32_t open_checked(const std::uint8_t *program, std::size_t count, const std::uint8_t (&digest)[R2U2_DIGEST_BYTES],
                               r2u2_fault *fault = nullptr) noexcept {
        return r2u2_checked_open_checked(&it, program, count, digest, fault);
    }

    template <class Program>
    std::uint32_t open_checked(const Program &program, const std::uint8_t (&digest)[R2U2_DIGEST_BYTES],
                               r2u2_fault *fault = nullptr) noexcept {
        return open_checked(bytes_of(program), program.size(), digest, fault);
    }

    // Stores in `found` how many bytes a monitor of this program holds while it is open.
    template <class Program>
    static std::uint32_t bytes(const Program &program, std::uint64_t &found, r2u2_fault *fault = nullptr) noexcept {
        return r2u2_checked_bytes(bytes_of(program), program.size(), &found, fault);
    }

    // Takes a row: one number for each column.
    std::uint32_t row(const std::int64_t *numbers, std::size_t count, r2u2_row_fault *fault = nullptr) noexcept {
        return r2u2_checked_row(&it, numbers, count, fault);
    }

    template <class Row>
    std::uint32_t row(const Row &numbers, r2u2_row_fault *fault = nullptr) noexcept {
        return row(numbers.data(), numbers.size(), fault);
    }

    // Stores the next report of the rows so far: R2U2_DONE, R2U2_NO_REPORT if none is left, or R2U2_NOT_OPEN.
    std::uint32_t next(Report &report, r2u2_style style = R2U2_EACH) noexcept {
        r2u2_report found{};
        const std::uint32_t code = r2u2_checked_next(&it, style, &found);
        if (code == R2U2_DONE) {
            report.output = found.output;
            report.time = found.time;
            report.word = static_cast<r2u2_word>(found.word);
        }
        return code;
    }

    // Stores the next reports, at most `room` of them, and in `count` how many; if they are fewer, none is left.
    std::uint32_t next_many(r2u2_report *reports, std::size_t room, std::size_t &count,
                            r2u2_style style = R2U2_EACH) noexcept {
        return r2u2_checked_next_many(&it, style, reports, room, &count);
    }

    // Takes rows one after another, whose numbers are in one range, and stores their reports, as r2u2_row_many does.
    std::uint32_t row_many(const std::int64_t *numbers, std::size_t count, r2u2_report *reports, std::size_t room,
                           r2u2_batch &batch, r2u2_row_fault *fault = nullptr, r2u2_style style = R2U2_EACH) noexcept {
        return r2u2_checked_row_many(&it, style, numbers, count, reports, room, &batch, fault);
    }

    template <class Numbers>
    std::uint32_t row_many(const Numbers &numbers, r2u2_report *reports, std::size_t room, r2u2_batch &batch,
                           r2u2_row_fault *fault = nullptr, r2u2_style style = R2U2_EACH) noexcept {
        return row_many(numbers.data(), numbers.size(), reports, room, batch, fault, style);
    }

    // Resets the monitor to its state before the first row, in the memory that it has.
    std::uint32_t reset() noexcept { return r2u2_checked_reset(&it); }

    bool is_open() const noexcept { return it.at != nullptr; }
    std::uint32_t width() const noexcept { return r2u2_width(&it); }
    std::uint32_t outputs() const noexcept { return r2u2_outputs(&it); }
    std::uint64_t rows() const noexcept { return r2u2_rows(&it); }
    std::uint64_t steps() const noexcept { return r2u2_steps(&it); }

    // Returns the most reports that one row brings, in either style.
    std::uint64_t most_reports() const noexcept { return r2u2_most_reports(&it); }

    // Returns whether an output is an assume-guarantee contract; else it is a formula, or there is no such output.
    bool is_contract(std::uint32_t k) noexcept { return r2u2_output_kind(&it, k) == R2U2_CONTRACT; }

    // Returns the worst-case delay of an output in rows; 0 if there is no such output.
    std::uint32_t delay(std::uint32_t k) noexcept { return r2u2_delay(&it, k); }

    // Stores the name of an output in a buffer, with a zero byte, and returns its length; 0 if there is no such output.
    std::uint32_t name(std::uint32_t k, char (&buffer)[R2U2_NAME_BYTES]) noexcept {
        return r2u2_checked_name(&it, k, buffer, sizeof buffer);
    }

    // Returns the name of an output; empty if there is no such output.
    std::string name(std::uint32_t k) {
        char buffer[R2U2_NAME_BYTES] = {};
        return std::string(buffer, name(k, buffer));
    }

    // Returns the signals that the program stores, in order of declaration.
    std::vector<Signal> signals() {
        std::vector<Signal> all(r2u2_signals(&it));
        for (std::uint32_t k = 0; k < all.size(); k++) {
            char buffer[R2U2_NAME_BYTES] = {};
            std::uint32_t kind = 0;
            all[k].name.assign(buffer, r2u2_checked_signal(&it, k, &all[k].column, &kind, buffer, sizeof buffer));
            all[k].kind = static_cast<r2u2_signal_kind>(kind);
        }
        return all;
    }

private:
    template <class Program>
    static const std::uint8_t *bytes_of(const Program &program) noexcept {
        static_assert(sizeof *program.data() == 1, "a program is a range of bytes");
        return reinterpret_cast<const std::uint8_t *>(program.data());
    }

    r2u2 it{};
};

#ifdef R2U2_HAS_EXCEPTIONS

// A code above 0, and the fault that came with it, if there was one.
struct Error : std::runtime_error {
    Error(std::uint32_t number, const std::string &text) : std::runtime_error(text), code(number) {}
    std::uint32_t code;
    r2u2_fault fault{};
    r2u2_row_fault row{};
};

// An open monitor, whose calls throw Error in place of returning a code.
class Monitor {
public:
    template <class Program>
    explicit Monitor(const Program &program) {
        r2u2_fault fault{};
        opened(handle.open(program, &fault), fault);
    }

    template <class Program>
    Monitor(const Program &program, const std::string &header) {
        r2u2_fault fault{};
        opened(handle.open_under(program, header, &fault), fault);
    }

    // Returns how many bytes a monitor of this program holds while it is open.
    template <class Program>
    static std::uint64_t bytes(const Program &program) {
        r2u2_fault fault{};
        std::uint64_t found = 0;
        opened(Handle::bytes(program, found, &fault), fault);
        return found;
    }

    // Takes a row.
    template <class Row>
    void row(const Row &numbers) {
        r2u2_row_fault fault{};
        const std::uint32_t code = handle.row(numbers, &fault);
        if (code == R2U2_DONE) return;
        Error error(code, code == R2U2_NOT_A_ROW ? "no number that fits in column " + std::to_string(fault.column + 1)
                                                 : "r2u2_row: code " + std::to_string(code));
        error.row = fault;
        throw error;
    }

    // Stores the next report of the rows so far, and returns whether there was one.
    bool next(Report &report, r2u2_style style = R2U2_EACH) {
        const std::uint32_t code = handle.next(report, style);
        if (code != R2U2_DONE && code != R2U2_NO_REPORT) throw Error(code, "r2u2_next: code " + std::to_string(code));
        return code == R2U2_DONE;
    }

    // Resets the monitor to its state before the first row, in the memory that it has.
    void reset() {
        const std::uint32_t code = handle.reset();
        if (code != R2U2_DONE) throw Error(code, "r2u2_reset: code " + std::to_string(code));
    }

    std::uint32_t width() noexcept { return handle.width(); }
    std::uint32_t outputs() noexcept { return handle.outputs(); }
    std::uint64_t rows() noexcept { return handle.rows(); }
    std::uint64_t steps() noexcept { return handle.steps(); }
    std::uint32_t delay(std::uint32_t k) noexcept { return handle.delay(k); }
    std::string name(std::uint32_t k) { return handle.name(k); }
    std::vector<Signal> signals() { return handle.signals(); }

private:
    static void opened(std::uint32_t code, const r2u2_fault &fault) {
        if (code == R2U2_DONE) return;
        Error error(code, code == R2U2_REFUSED ? fault.text : "r2u2_open: code " + std::to_string(code));
        error.fault = fault;
        throw error;
    }

    Handle handle;
};

#endif

}  // namespace mltl

#endif
