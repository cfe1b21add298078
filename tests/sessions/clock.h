// The clock of a drawn day. QuickFIX reads the time by `gettimeofday` and `time`, which clock.cpp
// defines for this program.
#ifndef SESSIONS_CLOCK_H
#define SESSIONS_CLOCK_H

#include <cstdint>
#include <string>

namespace sessions {

using Millis = std::int64_t;

// 14 March 2025, at midnight, in milliseconds since 1970.
constexpr Millis MIDNIGHT = 1741910400000;
constexpr const char *DATE = "20250314";

// It is this time, in milliseconds since 1970.
Millis now();
void set_now(Millis time);

// The milliseconds of the day.
inline std::uint32_t moment() {
    return static_cast<std::uint32_t>(now() - MIDNIGHT);
}

// `YYYYMMDD-HH:MM:SS.sss`
std::string timestamp(Millis time);

} // namespace sessions

#endif
