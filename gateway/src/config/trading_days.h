// The days on which the venue trades, and the hours of each.
#ifndef GATEWAY_CONFIG_TRADING_DAYS_H
#define GATEWAY_CONFIG_TRADING_DAYS_H

#include <chrono>
#include <optional>
#include <set>
#include <string>
#include <string_view>

namespace gateway {

using SystemSeconds = std::chrono::sys_seconds;

// What an operator says of them. Times of day are those of a named zone, since summer time moves
// them in UTC.
struct DayRules {
    std::string zone = "UTC"; // as the tz database names it
    std::chrono::minutes opens{0};
    // From when on no new request is taken; `ends` where it is not set.
    std::optional<std::chrono::minutes> closes{};
    std::chrono::minutes ends{std::chrono::hours(24)};
    std::set<unsigned> weekdays = {0, 1, 2, 3, 4, 5, 6}; // from Sunday, 0
    std::set<std::string> holidays;                      // days of the zone, YYYY-MM-DD
};

// One trading day. It lies within one day of UTC, whose date all its messages bear.
struct TradingDay {
    std::string date; // YYYYMMDD, in UTC
    SystemSeconds opens;
    SystemSeconds closes; // for new requests; at the latest when it ends
    SystemSeconds ends;
};

class TradingDays {
  public:
    // Throws std::runtime_error where the zone is none, where no day is left, or where a day of the
    // two years from `now` on would not lie within one day of UTC, not open before it ends, or not
    // close between the two.
    TradingDays(DayRules rules, SystemSeconds now);

    // The first one that has not ended at this moment, as long as there is one within a year.
    TradingDay first_after(SystemSeconds now) const;

  private:
    DayRules rules_;
};

// Whether the tz database has a zone of this name.
bool is_zone(const std::string &name);
// The moment in UTC at which a date (eight digits) begins.
SystemSeconds midnight_of(std::string_view date);
// HH:MM, from 00:00 to 24:00; nothing else.
std::optional<std::chrono::minutes> time_of_day(std::string_view text);
std::string text_of_time(std::chrono::minutes time);
// Sun to Sat, as a number from 0.
std::optional<unsigned> weekday_of(std::string_view text);
// The days of a file: one a line, YYYY-MM-DD, with what stands behind a `#` left out. Throws
// std::runtime_error with the number of the first line that is neither a day nor empty.
std::set<std::string> holidays_of(std::string_view text);

} // namespace gateway

#endif
