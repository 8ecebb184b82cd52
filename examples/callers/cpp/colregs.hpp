// The library colregs for C++17: one function over string views that returns a report.
//
//   colregs::Report report = colregs::report(colregs::Mode::plan, scenario, log);
//
// It throws std::bad_alloc if memory runs out, and never another exception: a fault of the input is a status of the report. Threads may call it at the same time.
#ifndef COLREGS_HPP
#define COLREGS_HPP

#include <colregs.h>

#include <array>
#include <cstdint>
#include <new>
#include <optional>
#include <string>
#include <string_view>

namespace colregs {

enum class Mode : std::uint32_t {
    points = COLREGS_POINTS,
    audit = COLREGS_AUDIT,
    plan = COLREGS_PLAN,
    drill = COLREGS_DRILL,
    migrate = COLREGS_MIGRATE,
    recheck = COLREGS_RECHECK,
    watch = COLREGS_WATCH
};

struct Options {
    std::optional<std::uint64_t> start = std::nullopt;  // seconds since 1970-01-01 00:00 UTC, at most 9999999999; otherwise the scenario's own
    std::optional<std::uint32_t> ticks = std::nullopt;  // the length of the window, 1 to 20000; otherwise the scenario's own
    std::uint32_t seed = 1;                             // of a drill, at most 999999
    bool why = false;                                   // whether a plan says why every plan fails
};

struct Report {
    int status;         // the exit status of the program, a `colregs_status`
    std::string text;   // the report
    std::string fault;  // the line of standard error, with its line feed; empty if the status is 0 or 1
};

namespace detail {

// The bytes of a view. A view of nothing may hold a null pointer, which the library does not take.
inline const std::uint8_t *bytes(std::string_view view) {
    return reinterpret_cast<const std::uint8_t *>(view.empty() ? "" : view.data());
}

inline std::uint8_t *bytes(std::string &text) { return reinterpret_cast<std::uint8_t *>(text.data()); }

// The numbers of the options. A length of 0 ticks is no length, and must not become the scenario's own.
inline colregs_options numbers(const Options &options) {
    colregs_options made = COLREGS_NO_OPTIONS;
    if (options.start) made.start = *options.start == COLREGS_OWN_START ? COLREGS_OWN_START - 1 : *options.start;
    if (options.ticks) made.ticks = *options.ticks == COLREGS_OWN_TICKS ? UINT32_MAX : *options.ticks;
    made.seed = options.seed;
    made.flags = options.why ? COLREGS_WHY : 0;
    return made;
}

}  // namespace detail

// Returns the report of a mode on a log, with its status. `rows` are the rows `why` that `recheck` checks.
inline Report report(Mode mode, std::string_view scenario, std::string_view log, const Options &options = {}, std::string_view rows = {}) {
    const colregs_options numbers = detail::numbers(options);
    Report made{0, std::string(4096, '\0'), std::string(256, '\0')};
    for (;;) {
        std::size_t length = 0, fault_length = 0;
        made.status = colregs_report(static_cast<std::uint32_t>(mode), detail::bytes(scenario), scenario.size(), detail::bytes(log), log.size(), detail::bytes(rows), rows.size(), &numbers,
                                     detail::bytes(made.text), made.text.size(), &length, detail::bytes(made.fault), made.fault.size(), &fault_length);
        if (made.status == COLREGS_OUT_OF_MEMORY) throw std::bad_alloc();
        const bool fits = length <= made.text.size() && fault_length <= made.fault.size();
        // A room that was too small gets the length that it needs, and the second call fits.
        made.text.resize(length);
        made.fault.resize(fault_length);
        if (fits) return made;
    }
}

}  // namespace colregs

#endif
