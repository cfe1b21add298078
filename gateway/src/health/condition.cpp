#include "health/condition.h"

#include <fmt/format.h>

namespace gateway {

namespace {

const char *words_of(Phase phase) {
    switch (phase) {
    case Phase::closed:
        return "closed";
    case Phase::opens:
        return "opens";
    case Phase::stands_by:
        return "stands by";
    case Phase::ready:
        return "ready";
    case Phase::ends:
        return "ends";
    }
    return "";
}

} // namespace

std::optional<std::string> Condition::fault() const {
    if (!silent || silent->time < longest_healthy_silence) {
        return std::nullopt;
    }
    const auto seconds = std::chrono::duration_cast<std::chrono::seconds>(silent->time).count();
    return fmt::format("{} has not worked for {} s", silent->part, seconds);
}

std::string Condition::words() const {
    const std::string now =
        day.empty() ? words_of(phase) : fmt::format("{}: {}", words_of(phase), day);
    if (const auto what = fault()) {
        return fmt::format("{} ({})", *what, now);
    }
    return not_taken.empty() ? now : fmt::format("{} ({})", now, fmt::join(not_taken, "; "));
}

bool Condition::has_started() const {
    return phase == Phase::closed || phase == Phase::stands_by || phase == Phase::ready;
}

} // namespace gateway
