// How the service is, in a few words: for systemd, for /health and /ready, and for the page.
#ifndef GATEWAY_HEALTH_CONDITION_H
#define GATEWAY_HEALTH_CONDITION_H

#include "health/liveness.h"

#include <chrono>
#include <optional>
#include <string>
#include <vector>

namespace gateway {

// What the service does now.
enum class Phase {
    closed,    // no day has opened: it waits for the next one
    opens,     // it reads the day's log, and has the venue answer it
    stands_by, // the same, and another gateway speaks: this one could take over
    ready,     // firms may log on
    ends,      // sessions are logged out, and the log is closed
};

// A venue and a log that work show it within six seconds, as long as they have nothing to do too.
constexpr auto longest_healthy_silence = std::chrono::seconds(15);

struct Condition {
    Phase phase = Phase::closed;
    std::string day;                        // of today or the next one: its date, and when it opens
    std::optional<Liveness::Silent> silent; // the part that has been silent longest
    std::vector<std::string> not_taken{};   // why business is not, now or soon, a line each

    // What is wrong, or nothing.
    std::optional<std::string> fault() const;
    // The phase and the day, with what is wrong or why business is not taken.
    std::string words() const;
    // The service has come to where it is to be: what systemd waits for at a start.
    bool has_started() const;
};

} // namespace gateway

#endif
