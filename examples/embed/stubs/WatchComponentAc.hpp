// Stand-in for the base class that F Prime makes from Watch.fpp: it prints events.
#ifndef WATCHCOMPONENTAC_HPP
#define WATCHCOMPONENTAC_HPP

#include <cstddef>
#include <cstdint>
#include <cstdio>

using U8 = std::uint8_t;
using U32 = std::uint32_t;
using U64 = std::uint64_t;
using I64 = std::int64_t;
using FwIndexType = std::int16_t;
using FwSizeType = std::size_t;

namespace Fw {

class StringBase {
public:
    virtual ~StringBase() = default;
    virtual const char *toChar() const = 0;
};

class LogStringArg : public StringBase {
public:
    explicit LogStringArg(const char *from) : text(from) {}
    const char *toChar() const override { return text; }

private:
    const char *text;
};

}  // namespace Fw

class WatchComponentBase {
public:
    explicit WatchComponentBase(const char *) {}
    virtual ~WatchComponentBase() = default;

    // Calls of the input ports.
    void send(FwIndexType port, I64 value) { sampleIn_handler(port, value); }
    void wake() { schedIn_handler(0, 0); }

protected:
    enum { NUM_SAMPLEIN_INPUT_PORTS = 2 };

    virtual void sampleIn_handler(FwIndexType port, I64 value) = 0;
    virtual void schedIn_handler(FwIndexType port, U32 context) = 0;

    void log_FATAL_NoMonitor(const Fw::StringBase &why) { std::printf("no monitor: %s\n", why.toChar()); }
    void log_WARNING_HI_NoRow(U32 code, U32 column) { std::printf("no row: code %u, column %u\n", code, column); }
    void log_WARNING_HI_RequirementFalse(U32 output, U64 time) {
        std::printf("requirement %u false up to row %llu\n", output, static_cast<unsigned long long>(time));
    }
};

#endif
