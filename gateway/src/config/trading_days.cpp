#include "config/trading_days.h"

#include <algorithm>
#include <array>
#include <optional>
#include <sstream>
#include <stdexcept>

#include <date/tz.h>
#include <fmt/chrono.h>
#include <fmt/format.h>

namespace gateway {

namespace {

using std::chrono::days;
using std::chrono::floor;

// How far ahead a trading day is looked for, and how far ahead the rules are tried: over all
// changes of summer time.
constexpr days longest_wait{366};
constexpr days tried{2 * 366};

const date::time_zone &zone_of(const DayRules &rules) {
    try {
        return *date::locate_zone(rules.zone);
    } catch (const std::runtime_error &) {
        throw std::runtime_error(fmt::format("the zone {} is none of the tz database", rules.zone));
    }
}

std::string dashed(date::local_days day) {
    const date::year_month_day parts(day);
    return fmt::format("{:04}-{:02}-{:02}", int(parts.year()), unsigned(parts.month()),
                       unsigned(parts.day()));
}

std::string plain(date::sys_days day) {
    const date::year_month_day parts(day);
    return fmt::format("{:04}{:02}{:02}", int(parts.year()), unsigned(parts.month()),
                       unsigned(parts.day()));
}

bool is_trading(const DayRules &rules, date::local_days day) {
    return rules.weekdays.contains(date::weekday(day).c_encoding()) &&
           !rules.holidays.contains(dashed(day));
}

// An hour that summer time skips is its end, and one that it repeats the first of the two.
SystemSeconds moment_of(const date::time_zone &zone, date::local_days day,
                        std::chrono::minutes time) {
    return zone.to_sys(date::local_seconds(day + time), date::choose::earliest);
}

TradingDay day_of(const DayRules &rules, const date::time_zone &zone, date::local_days day) {
    const SystemSeconds opens = moment_of(zone, day, rules.opens);
    const SystemSeconds closes = moment_of(zone, day, rules.closes.value_or(rules.ends));
    const SystemSeconds ends = moment_of(zone, day, rules.ends);
    return {plain(floor<days>(opens)), opens, closes, ends};
}

void check_day(const TradingDay &day, date::local_days local) {
    if (day.ends <= day.opens) {
        throw std::runtime_error(fmt::format("{} would end before it opens", dashed(local)));
    }
    if (day.closes <= day.opens || day.closes > day.ends) {
        throw std::runtime_error(
            fmt::format("{} would not close between its opening and its end", dashed(local)));
    }
    // The end of a day of UTC is that of its last second.
    if (floor<days>(day.opens) != floor<days>(day.ends - std::chrono::seconds(1))) {
        throw std::runtime_error(fmt::format(
            "{} would not lie within one day of UTC, whose date its messages bear", dashed(local)));
    }
}

std::optional<unsigned> number_in(std::string_view text, std::size_t at, std::size_t digits) {
    unsigned number = 0;
    for (const char c : text.substr(at, digits)) {
        if (c < '0' || c > '9') {
            return std::nullopt;
        }
        number = number * 10 + static_cast<unsigned>(c - '0');
    }
    return number;
}

bool is_day(std::string_view text) {
    if (text.size() != 10 || text[4] != '-' || text[7] != '-') {
        return false;
    }
    const auto year = number_in(text, 0, 4);
    const auto month = number_in(text, 5, 2);
    const auto day = number_in(text, 8, 2);
    return year && month && day &&
           date::year_month_day(date::year(static_cast<int>(*year)), date::month(*month),
                                date::day(*day))
               .ok();
}

std::string_view trimmed(std::string_view text) {
    const auto is_space = [](char c) { return c == ' ' || c == '\t' || c == '\r'; };
    while (!text.empty() && is_space(text.front())) {
        text.remove_prefix(1);
    }
    while (!text.empty() && is_space(text.back())) {
        text.remove_suffix(1);
    }
    return text;
}

} // namespace

TradingDays::TradingDays(DayRules rules, SystemSeconds now) : rules_(std::move(rules)) {
    const date::time_zone &zone = zone_of(rules_);
    const auto first = floor<days>(zone.to_local(now));
    for (auto day = first; day < first + tried; day += days(1)) {
        if (is_trading(rules_, day)) {
            check_day(day_of(rules_, zone, day), day);
        }
    }
    first_after(now);
}

TradingDay TradingDays::first_after(SystemSeconds now) const {
    const date::time_zone &zone = zone_of(rules_);
    // The zone's day before: it may end on this one.
    const auto first = floor<days>(zone.to_local(now)) - days(1);
    for (auto day = first; day < first + longest_wait; day += days(1)) {
        const TradingDay found = day_of(rules_, zone, day);
        if (is_trading(rules_, day) && found.ends > now) {
            return found;
        }
    }
    throw std::runtime_error("no day of the year to come is a trading day");
}

bool is_zone(const std::string &name) {
    DayRules rules;
    rules.zone = name;
    try {
        zone_of(rules);
        return true;
    } catch (const std::runtime_error &) {
        return false;
    }
}

SystemSeconds midnight_of(std::string_view date) {
    const auto number = [date](std::size_t at, std::size_t size) {
        return number_in(date, at, size).value_or(0);
    };
    return std::chrono::sys_days(std::chrono::year(static_cast<int>(number(0, 4))) /
                                 std::chrono::month(number(4, 2)) / std::chrono::day(number(6, 2)));
}

std::optional<std::chrono::minutes> time_of_day(std::string_view text) {
    if (text.size() != 5 || text[2] != ':') {
        return std::nullopt;
    }
    const auto hours = number_in(text, 0, 2);
    const auto minutes = number_in(text, 3, 2);
    if (!hours || !minutes || *minutes > 59 || *hours * 60 + *minutes > 24 * 60) {
        return std::nullopt;
    }
    return std::chrono::minutes(*hours * 60 + *minutes);
}

std::string text_of_time(std::chrono::minutes time) {
    return fmt::format("{:02}:{:02}", time.count() / 60, time.count() % 60);
}

std::optional<unsigned> weekday_of(std::string_view text) {
    constexpr std::array<std::string_view, 7> names = {"Sun", "Mon", "Tue", "Wed",
                                                       "Thu", "Fri", "Sat"};
    const auto *found = std::ranges::find(names, text);
    if (found == names.end()) {
        return std::nullopt;
    }
    return static_cast<unsigned>(found - names.begin());
}

std::set<std::string> holidays_of(std::string_view text) {
    std::set<std::string> found;
    std::istringstream lines{std::string(text)};
    std::size_t number = 0;
    for (std::string line; std::getline(lines, line);) {
        ++number;
        const std::string_view day = trimmed(std::string_view(line).substr(0, line.find('#')));
        if (day.empty()) {
            continue;
        }
        if (!is_day(day)) {
            throw std::runtime_error(
                fmt::format("line {}: a holiday is a day as YYYY-MM-DD", number));
        }
        found.emplace(day);
    }
    return found;
}

} // namespace gateway
