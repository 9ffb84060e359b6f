// A component of F Prime: its ports `sampleIn` keep the last value of each signal, each call of its `schedIn` port passes the
// monitor a row, and requirements that are false become warnings. F Prime makes the base class from Watch.fpp.
#ifndef WATCH_HPP
#define WATCH_HPP

#include <array>

#include "WatchComponentAc.hpp"
#include "r2u2.h"

namespace Mission {

class Watch final : public WatchComponentBase {
public:
    explicit Watch(const char *name) : WatchComponentBase(name) {}
    ~Watch() { r2u2_close(&monitor); }

    // Opens the monitor, once, before the first call of a port.
    bool configure(const U8 *program, FwSizeType size);

private:
    static constexpr std::size_t COLUMNS = NUM_SAMPLEIN_INPUT_PORTS;

    void sampleIn_handler(FwIndexType port, I64 value) override;
    void schedIn_handler(FwIndexType port, U32 context) override;
    void report();

    r2u2 monitor{};
    std::array<int64_t, COLUMNS> row{}, good{};
    std::array<bool, COLUMNS> known{};
    bool hasGood = false;
};

}  // namespace Mission

#endif
