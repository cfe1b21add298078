// Moments in UTC, to the millisecond.
#ifndef DESK_MOMENT_H
#define DESK_MOMENT_H

#include <chrono>
#include <cstdint>
#include <optional>
#include <string>
#include <string_view>

namespace desk {

using Moment = std::chrono::sys_time<std::chrono::milliseconds>;

Moment now();

// As FIX writes it: YYYYMMDD-HH:MM:SS.sss, or without the milliseconds. Nothing where it is none.
std::optional<Moment> moment_of(std::string_view text);
std::string fix_text(Moment moment);

// YYYYMMDD
std::string date_of(Moment moment);

// The day of the calendar.
inline std::chrono::year_month_day day_of(Moment moment) {
    return std::chrono::floor<std::chrono::days>(moment);
}

// Milliseconds since 1970, as the page and the journal have them.
inline std::int64_t milliseconds_of(Moment moment) {
    return moment.time_since_epoch().count();
}

} // namespace desk

#endif
